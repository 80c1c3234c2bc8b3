//! Real RSA keys: what is made, OpenSSL verifies, and what OpenSSL made is received.
#![forbid(unsafe_code)]

mod common;

#[path = "../examples/receive.rs"]
#[allow(dead_code)]
mod example;

use calmizsed::request::{self, Locations};
use calmizsed::setup::{self, Kind as SetupKind};
use calmizsed::{
    anchor, create, explain, receive, CreateError, Kind, Part, PublicKey, Question, Refusal,
    SerialNumber, Signer, SignerError, Time,
};
use common::openssl::{folder, openssl, openssl_says, OpensslSigner};
use common::toy::{self, ToySigner};
use common::{file, octets_of_line, tree};

/// When `examples/rsa-query.der` was signed, as the page of the programs says.
const SIGNED_AT: i64 = 1_795_927_350;
const LOCATIONS: Locations<'_> = Locations {
    repository: "rsync://localhost/ca/one",
    manifest: "rsync://localhost/ca/ca.mft",
    notify: Some("https://localhost/n.xml"),
};

fn holds(question: Question<'_>) -> bool {
    let folder = example::Folder::new().expect("a folder");
    folder.signature_holds(question).expect("an answer")
}

fn list_query() -> String {
    String::from_utf8(file("examples/query-list.xml"))
        .expect("UTF-8")
        .trim_end()
        .to_owned()
}

fn ran(
    kind: &str,
    time: i64,
    keys: &[&str],
    message: &[u8],
) -> Result<calmizsed::Receipt, Refusal> {
    let keys = keys
        .iter()
        .map(|name| tree(name).to_str().expect("UTF-8").to_owned());
    let words: Vec<_> = [kind.to_owned(), time.to_string()]
        .into_iter()
        .chain(keys)
        .collect();
    example::run(&words, message).map_err(|why| *why.downcast::<Refusal>().expect("a refusal"))
}

#[test]
fn the_example_receives_what_openssl_signed() {
    let (message, key) = (
        file("examples/rsa-query.der"),
        ["examples/rsa-issuer-public.pem"],
    );
    let receipt = ran("publication", SIGNED_AT, &key, &message).expect("a receipt");
    assert_eq!((receipt.text, receipt.place), (list_query(), 0));
    assert_eq!(receipt.signing_time, Some(Time::from_seconds(SIGNED_AT)));

    let refused = |kind, time, message| {
        ran(kind, time, &key, message)
            .expect_err("a refusal")
            .name()
    };
    assert_eq!(
        refused("publication", SIGNED_AT + 1_000_000, &message),
        "Validation 5"
    );
    assert_eq!(refused("provisioning", SIGNED_AT, &message), "XmlError");
    assert_eq!(
        refused("publication", SIGNED_AT, &message[..message.len() - 300]),
        "CmsDecode"
    );
    let mut changed = message.clone();
    *changed.last_mut().expect("an octet") ^= 1;
    assert_eq!(refused("publication", SIGNED_AT, &changed), "Validation 3");
}

/// Made under keys of so many bits, verified by OpenSSL, and received under the second of two keys.
fn made_and_received(bits: u32) {
    let folder = folder(&format!("message-{bits}"));
    let issuer = OpensslSigner::rsa(&folder, "issuer", bits);
    let (other, one_off) = (
        OpensslSigner::rsa(&folder, "other", 2048),
        OpensslSigner::rsa(&folder, "one-off", 2048),
    );
    let (when, text) = (Time::now(), list_query());
    let serial = SerialNumber::draw().expect("a number");
    let made =
        create(Kind::Publication, &text, when, &issuer, &one_off, serial).expect("a message");

    let content = openssl(
        &folder,
        &["cms", "-verify", "-noverify", "-inform", "DER"],
        &made,
    );
    assert_eq!(content.as_deref(), Ok(text.as_bytes()));

    let keys = [other.public_key().clone(), issuer.public_key().clone()];
    let receipt = receive(Kind::Publication, &made, &keys, when, holds).expect("a receipt");
    assert_eq!(
        (receipt.text, receipt.place, receipt.signing_time),
        (text.clone(), 1, Some(when))
    );
    assert_eq!(
        explain(&made, &keys[1], when, holds)
            .expect("checks")
            .first_failure(),
        None
    );

    changed_and_received(&made, &keys, when);
}

/// With a bit of its content changed, and under another key, it isn't received.
fn changed_and_received(made: &[u8], keys: &[PublicKey], when: Time) {
    let place = made
        .windows(5)
        .position(|octets| octets == b"query")
        .expect("the content is in it");
    let mut changed = made.to_vec();
    changed[place] ^= 0x20;
    let failed = explain(&changed, &keys[1], when, holds)
        .expect("checks")
        .first_failure();
    assert_eq!(failed.map(calmizsed::Check::number), Some(2));
    let refusal = receive(Kind::Publication, made, &keys[..1], when, holds).expect_err("a refusal");
    assert_eq!(refusal.name(), "Validation 6");
}

#[test]
fn messages_under_keys_of_2048_bits_are_made_and_received() {
    made_and_received(2048);
}

#[test]
fn messages_under_keys_of_4096_bits_are_made_and_received() {
    made_and_received(4096);
}

#[test]
fn a_signature_under_a_key_of_less_than_2048_bits_counts_for_nothing() {
    let folder = folder("short-keys");
    let octets = b"octets".as_slice();
    for (bits, wanted) in [(1024, false), (2047, false), (2048, true)] {
        let signer = OpensslSigner::rsa(&folder, "own", bits);
        let signature = signer.sign(octets).expect("OpenSSL signs");
        let (part, key) = (Part::Request, signer.public_key().as_der());
        let question = Question {
            part,
            key,
            octets,
            signature: &signature,
        };
        assert_eq!(holds(question), wanted, "{bits} bits");
        assert!(!holds(Question {
            octets: b"others",
            ..question
        }));
        assert!(!holds(Question {
            signature: &signature[1..],
            ..question
        }));
        assert!(!holds(Question {
            key: &key[1..],
            ..question
        }));
    }
}

#[test]
fn a_key_that_is_no_rsa_key_verifies_nothing_and_signs_nothing() {
    let folder = folder("other-keys");
    let curve = ["-algorithm", "EC", "-pkeyopt", "ec_paramgen_curve:P-256"];
    let signer = OpensslSigner::draw(&folder, "curve", &curve);
    let (part, octets, key) = (
        Part::Request,
        b"octets".as_slice(),
        signer.public_key().as_der(),
    );
    let signature = signer.sign(octets).expect("OpenSSL signs");
    assert!(!holds(Question {
        part,
        key,
        octets,
        signature: &signature
    }));
    let refused = request::create(&signer, &LOCATIONS).expect_err("a refusal");
    assert_eq!(
        (refused.name().as_str(), refused.status()),
        ("IncompatibleKey", 7)
    );
}

/// One that is for RSA's other signatures alone (RFC 4055) is none that the library knows.
#[test]
fn a_key_for_pss_alone_is_refused() {
    let folder = folder("pss");
    let (part, octets) = (Part::Request, b"octets".as_slice());
    let words = [
        "genpkey",
        "-algorithm",
        "RSA-PSS",
        "-pkeyopt",
        "rsa_keygen_bits:2048",
        "-out",
        "pss.pem",
    ];
    openssl(&folder, &words, b"").expect("a key");
    let words = ["pkey", "-in", "pss.pem", "-pubout", "-outform", "DER"];
    let key = openssl(&folder, &words, b"").expect("its public key");
    assert_eq!(PublicKey::from_der(key.as_slice()), Err(Refusal::Usage));
    let signature =
        openssl(&folder, &["dgst", "-sha256", "-sign", "pss.pem"], octets).expect("OpenSSL signs");
    assert!(!holds(Question {
        part,
        key: &key,
        octets,
        signature: &signature
    }));
}

#[test]
fn the_identifier_of_a_key_is_the_sha_1_that_openssl_makes_of_its_bits() {
    let folder = folder("identifier");
    let signer = OpensslSigner::rsa(&folder, "own", 2048);
    let words = [
        "rsa",
        "-in",
        "own.pem",
        "-RSAPublicKey_out",
        "-outform",
        "DER",
    ];
    let bits = openssl(&folder, &words, b"").expect("the key's bits");
    let digest = openssl(&folder, &["dgst", "-sha1", "-binary"], &bits).expect("a digest");
    assert_eq!(signer.public_key().identifier(), digest[..]);
}

#[test]
fn openssl_reads_the_trust_anchor_that_is_made() {
    let folder = folder("anchor");
    let signer = OpensslSigner::rsa(&folder, "own", 2048);
    let (from, to) = (
        Time::from_seconds(1_700_000_000),
        Time::from_seconds(1_800_000_000),
    );
    let made = anchor::create(from, to, &signer).expect("an anchor");
    assert_eq!(anchor::key(&made).as_ref(), Ok(signer.public_key()));

    let shown = openssl(
        &folder,
        &["x509", "-inform", "DER", "-noout", "-dates"],
        &made,
    )
    .expect("a certificate");
    let dates = "notBefore=Nov 14 22:13:20 2023 GMT\nnotAfter=Jan 15 08:00:00 2027 GMT\n";
    assert_eq!(String::from_utf8_lossy(&shown), dates);
    let mut changed = made.clone();
    *changed.last_mut().expect("an octet") ^= 1;
    let verify = [
        "verify",
        "-check_ss_sig",
        "-attime",
        "1750000000",
        "-CAfile",
    ];
    let verified = |certificate: &[u8]| {
        let words = ["x509", "-inform", "DER", "-out", "anchor.crt"];
        openssl(&folder, &words, certificate).expect("a certificate");
        openssl(
            &folder,
            &[&verify[..], &["anchor.crt", "anchor.crt"]].concat(),
            b"",
        )
    };
    assert_eq!(
        verified(&made).as_deref(),
        Ok(b"anchor.crt: OK\n".as_slice())
    );
    let why = verified(&changed).expect_err("a failure");
    assert!(why.contains("signature failure"), "{why}");
}

#[test]
fn a_setup_message_with_an_anchor_by_openssl_is_received() {
    let (kind, text) = (
        SetupKind::ChildRequest,
        file("examples/rsa-child-request.xml"),
    );
    let when = Time::from_seconds(1_800_000_000);
    let received = setup::receive(kind, &text, when, holds).expect("a message");
    assert_eq!(setup::read(kind, &text).as_ref(), Ok(&received));
    assert_eq!(
        setup::receive(kind, &text, when, |_| false),
        Err(Refusal::InvalidTaCert)
    );
    assert_eq!(
        setup::read(SetupKind::ParentResponse, &text),
        Err(Refusal::XmlError)
    );

    let anchor = setup::anchor(kind, &text).expect("an anchor");
    let folder = folder("setup");
    let key = openssl(
        &folder,
        &["x509", "-inform", "DER", "-noout", "-pubkey"],
        &anchor,
    )
    .expect("its key");
    let key = openssl(&folder, &["pkey", "-pubin", "-outform", "DER"], &key).expect("a key");
    assert_eq!(anchor::key(&anchor), PublicKey::from_der(key));
}

#[test]
fn openssl_verifies_the_certificate_request_that_is_made() {
    let folder = folder("request");
    let signer = OpensslSigner::rsa(&folder, "own", 2048);
    let made = request::create(&signer, &LOCATIONS).expect("a request");
    // Of a signature that doesn't hold, OpenSSL 3.0 says so, and ends with 0.
    let words = ["req", "-verify", "-inform", "DER", "-noout"];
    let says = openssl_says(&folder, &words, &made);
    assert!(says.contains("verify OK"), "{says}");
    let mut changed = made.clone();
    *changed.last_mut().expect("an octet") ^= 1;
    let says = openssl_says(&folder, &words, &changed);
    assert!(says.contains("verify failure"), "{says}");
    let shown = openssl(
        &folder,
        &["req", "-inform", "DER", "-noout", "-text"],
        &made,
    )
    .expect("a request");
    let shown = String::from_utf8_lossy(&shown);
    for uri in [
        "URI:rsync://localhost/ca/one/\n",
        "URI:rsync://localhost/ca/ca.mft\n",
        "URI:https://localhost/n.xml\n",
    ] {
        assert!(shown.contains(uri), "{uri} in {shown}");
    }
    assert_eq!(
        request::verify(&made, holds).as_ref(),
        Ok(signer.public_key())
    );
    assert_eq!(request::verify(&made, |_| false), Err(Refusal::Signature));
    let notify = Some("");
    let refused = request::create(
        &signer,
        &Locations {
            notify,
            ..LOCATIONS
        },
    )
    .expect_err("a refusal");
    assert_eq!(refused.name(), "Usage");
}

#[test]
fn a_certificate_request_by_openssl_is_verified() {
    let digits = file("examples/rsa-request.hex");
    let request = octets_of_line(&digits).expect("digits");
    let key = request::verify(&request, holds).expect("a key");
    assert_eq!(
        request::verify_issue(file("examples/rsa-issue.xml"), holds),
        Ok(key)
    );
}

/// A signer that never signs.
struct Absent(PublicKey);

impl Signer for Absent {
    fn public_key(&self) -> &PublicKey {
        &self.0
    }

    fn sign(&self, _octets: &[u8]) -> Result<Vec<u8>, SignerError> {
        Err("the device is gone".into())
    }
}

#[test]
fn a_signer_that_fails_is_told() {
    let (issuer, one_off) = (ToySigner(toy::key(0)), Absent(toy::key(1)));
    let (when, serial) = (
        Time::from_seconds(1_700_000_000),
        SerialNumber::from_random([255; 20]),
    );
    assert_eq!(serial.as_octets()[..2], [127, 255]);
    let attempt = |one: &dyn Signer, other: &dyn Signer| {
        create(Kind::Publication, list_query(), when, one, other, serial)
    };

    let failed = attempt(&issuer, &one_off).expect_err("a refusal");
    assert!(matches!(
        failed,
        CreateError::Signer {
            part: Part::Attributes,
            ..
        }
    ));
    assert_eq!(
        (failed.name().as_str(), failed.status(), failed.check()),
        ("Signer", 7, None)
    );
    assert_eq!(failed.to_string(), "Signer: it didn't sign the attributes");
    let cause = std::error::Error::source(&failed).expect("a cause");
    assert_eq!(cause.to_string(), "the device is gone");
    let failed = attempt(&one_off, &issuer).expect_err("a refusal");
    assert!(matches!(
        failed,
        CreateError::Signer {
            part: Part::Crl,
            ..
        }
    ));
}

#[test]
fn a_signer_behind_a_pointer_signs_too() {
    let signers: [Box<dyn Signer>; 2] =
        [0, 1].map(|number| -> Box<dyn Signer> { Box::new(ToySigner(toy::key(number))) });
    let (when, serial) = (
        Time::from_seconds(1_700_000_000),
        SerialNumber::from_random([1; 20]),
    );
    let made = |issuer, one_off| {
        create(
            Kind::Publication,
            list_query(),
            when,
            issuer,
            one_off,
            serial,
        )
    };
    let message = made(&signers[0], &signers[1]).expect("a message");
    let receipt = receive(
        Kind::Publication,
        &message,
        &[toy::key(0)],
        when,
        toy::holds,
    );
    assert_eq!(receipt.map(|receipt| receipt.text), Ok(list_query()));
    let reused = made(&signers[0], &&*signers[0]).expect_err("a refusal");
    assert_eq!((reused.name().as_str(), reused.status()), ("KeyReused", 7));
}
