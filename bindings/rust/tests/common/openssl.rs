//! The `openssl` command, which draws keys and signs in its own folder.

use calmizsed::{PublicKey, Signer, SignerError};
use std::fs;
use std::io::Write;
use std::path::{Path, PathBuf};
use std::process::{Command, Output, Stdio};

/// A folder of this test's own, new each time.
pub fn folder(name: &str) -> PathBuf {
    let path = Path::new(env!("CARGO_TARGET_TMPDIR")).join(name);
    if path.exists() {
        fs::remove_dir_all(&path).expect("goes");
    }
    fs::create_dir(&path).expect("comes");
    path
}

/// Runs the command in a folder on this input: what it writes, if it ends well, else what it says.
pub fn openssl(folder: &Path, words: &[&str], input: &[u8]) -> Result<Vec<u8>, String> {
    let ended = ended(folder, words, input);
    if ended.status.success() {
        return Ok(ended.stdout);
    }
    Err(String::from_utf8_lossy(&ended.stderr).into_owned())
}

/// What the command says to standard error, however it ends.
pub fn openssl_says(folder: &Path, words: &[&str], input: &[u8]) -> String {
    String::from_utf8_lossy(&ended(folder, words, input).stderr).into_owned()
}

fn ended(folder: &Path, words: &[&str], input: &[u8]) -> Output {
    let mut command = Command::new("openssl")
        .args(words)
        .current_dir(folder)
        .stdin(Stdio::piped())
        .stdout(Stdio::piped())
        .stderr(Stdio::piped())
        .spawn()
        .expect("there is openssl");
    let mut stdin = command.stdin.take().expect("its input");
    let written = stdin.write_all(input);
    drop(stdin);
    let ended = command.wait_with_output().expect("its end");
    // One that refuses its words may read nothing.
    assert!(written.is_ok() || !ended.status.success());
    ended
}

/// A key that OpenSSL drew and holds.
pub struct OpensslSigner {
    folder: PathBuf,
    file: String,
    key: PublicKey,
}

impl OpensslSigner {
    /// A new one, with these words for `openssl genpkey`.
    pub fn draw(folder: &Path, name: &str, words: &[&str]) -> Self {
        let file = format!("{name}.pem");
        let drawn = [&["genpkey", "-out", &file], words].concat();
        openssl(folder, &drawn, b"").expect("a key");
        let der = openssl(
            folder,
            &["pkey", "-in", &file, "-pubout", "-outform", "DER"],
            b"",
        );
        let key = PublicKey::from_der(der.expect("its public key")).expect("a key");
        Self {
            folder: folder.to_owned(),
            file,
            key,
        }
    }

    /// A new RSA key with so many bits.
    pub fn rsa(folder: &Path, name: &str, bits: u32) -> Self {
        let bits = format!("rsa_keygen_bits:{bits}");
        Self::draw(folder, name, &["-algorithm", "RSA", "-pkeyopt", &bits])
    }
}

impl Signer for OpensslSigner {
    fn public_key(&self) -> &PublicKey {
        &self.key
    }

    fn sign(&self, octets: &[u8]) -> Result<Vec<u8>, SignerError> {
        Ok(openssl(
            &self.folder,
            &["dgst", "-sha256", "-sign", &self.file],
            octets,
        )?)
    }
}
