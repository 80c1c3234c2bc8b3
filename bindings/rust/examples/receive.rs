//! Receives a signed message under public RSA keys of its sender: this crate decides, and the
//! `openssl` command says which signatures hold. In `bindings/rust`:
//!
//! ```sh
//! cargo run --example receive -- publication 1795927350 ../../examples/rsa-issuer-public.pem \
//!     < ../../examples/rsa-query.der
//! ```
//!
//! The words are the protocol, `publication` or `provisioning`; the time, in seconds since 1970, or
//! `now`; and files with one to eight keys, in PEM. The message of the protocol is written in XML,
//! and under which key it was accepted and when it was signed to standard error. The exit status is
//! that of the refusal, or 1.
#![forbid(unsafe_code)]

use calmizsed::message::{questions, receive_answered};
use calmizsed::{Kind, PublicKey, Question, Receipt, Refusal, Time};
use std::error::Error;
use std::ffi::OsStr;
use std::fs::{self, DirBuilder};
use std::io::{self, Read, Write};
use std::os::unix::fs::DirBuilderExt;
use std::path::{Path, PathBuf};
use std::process::{Command, ExitCode, Stdio};
use std::sync::atomic::{AtomicU32, Ordering};

/// How long the moduli of the RPKI's keys are at least (RFC 7935).
const LEAST_BITS: u32 = 2048;

fn main() -> ExitCode {
    let words: Vec<_> = std::env::args().skip(1).collect();
    match run(&words, io::stdin()) {
        Ok(receipt) => {
            println!("{}", receipt.text);
            let time = receipt
                .signing_time
                .map_or("-".to_owned(), |time| time.to_string());
            eprintln!("receive: {}: signed at {time}", words[2 + receipt.place]);
            ExitCode::SUCCESS
        }
        Err(why) => {
            eprintln!("receive: {why}");
            let refusal = why.downcast_ref::<Refusal>();
            let status = refusal.and_then(|refusal| u8::try_from(refusal.status()).ok());
            ExitCode::from(status.unwrap_or(1))
        }
    }
}

/// Receives the message in this input, as the words say.
pub(crate) fn run(words: &[String], mut input: impl Read) -> Result<Receipt, Box<dyn Error>> {
    let (kind, when, names) = match words {
        [kind, when, names @ ..] => (kind, when, names),
        _ => return Err("publication|provisioning TIME KEY.pem .. < MESSAGE.der".into()),
    };
    let kind = match kind.as_str() {
        "publication" => Kind::Publication,
        "provisioning" => Kind::Provisioning,
        other => return Err(format!("{other} is no protocol").into()),
    };
    let when = match when.as_str() {
        "now" => Time::now(),
        seconds => Time::from_seconds(seconds.parse()?),
    };
    let keys = names
        .iter()
        .map(|name| public_key(name))
        .collect::<Result<Vec<_>, _>>()?;
    let mut message = Vec::new();
    input.read_to_end(&mut message)?;

    let folder = Folder::new()?;
    let asked = questions(&message, &keys)?;
    let answers = asked.try_answer(|question| folder.signature_holds(question))?;
    Ok(receive_answered(
        kind, &message, &keys, when, None, &answers,
    )?)
}

/// The key in a file in PEM.
fn public_key(name: &str) -> Result<PublicKey, Box<dyn Error>> {
    let said = Command::new("openssl")
        .args(["pkey", "-pubin", "-outform", "DER", "-in", name])
        .output()?;
    if !said.status.success() {
        return Err(format!("{name} is no public key in PEM").into());
    }
    Ok(PublicKey::from_der(said.stdout)?)
}

/// A folder for the keys and signatures that `openssl` is asked about, which takes them from files.
#[derive(Debug)]
pub(crate) struct Folder(PathBuf);

impl Folder {
    /// A new one, which no one else enters.
    pub(crate) fn new() -> io::Result<Self> {
        static COUNT: AtomicU32 = AtomicU32::new(0);
        let name = format!(
            "calmizsed-{}-{}",
            std::process::id(),
            COUNT.fetch_add(1, Ordering::Relaxed)
        );
        let path = std::env::temp_dir().join(name);
        DirBuilder::new().mode(0o700).create(&path)?;
        Ok(Self(path))
    }

    /// Whether OpenSSL verifies the signature, as one of RSA in PKCS #1 v1.5. Of another key, or of
    /// one with less than 2048 bits (RFC 7935), it doesn't hold.
    pub(crate) fn signature_holds(&self, question: Question<'_>) -> io::Result<bool> {
        let (key, signature) = (self.0.join("key"), self.0.join("signature"));
        fs::write(&key, question.key)?;
        fs::write(&signature, question.signature)?;
        if bits(&key)? < LEAST_BITS {
            return Ok(false);
        }
        let mut openssl = Command::new("openssl")
            .args(["dgst", "-sha256", "-keyform", "DER"])
            .args(["-sigopt", "rsa_padding_mode:pkcs1"])
            .args([OsStr::new("-verify"), key.as_os_str()])
            .args([OsStr::new("-signature"), signature.as_os_str()])
            .stdin(Stdio::piped())
            .stdout(Stdio::null())
            .stderr(Stdio::null())
            .spawn()?;
        let input = openssl.stdin.take();
        let written = input.map_or(Ok(()), |mut input| input.write_all(question.octets));
        // OpenSSL may end before it has read all, where it refuses the key.
        let holds = openssl.wait()?.success();
        written.or_else(|why| if holds { Err(why) } else { Ok(()) })?;
        Ok(holds)
    }
}

/// How many bits the modulus of the key in this file has, and 0 if it is no RSA key.
fn bits(key: &Path) -> io::Result<u32> {
    let mut openssl = Command::new("openssl");
    openssl.args(["rsa", "-pubin", "-inform", "DER", "-noout", "-text", "-in"]);
    let said = openssl.arg(key).output()?;
    // It begins with a line `Public-Key: (2048 bit)`.
    let line = String::from_utf8_lossy(&said.stdout);
    let count = line.split(['(', ' ']).find_map(|word| word.parse().ok());
    Ok(count.filter(|_| said.status.success()).unwrap_or(0))
}

impl Drop for Folder {
    fn drop(&mut self) {
        if let Err(why) = fs::remove_dir_all(&self.0) {
            eprintln!("receive: {}: {why}", self.0.display());
        }
    }
}
