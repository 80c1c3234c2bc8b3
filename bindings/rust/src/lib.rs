//! Signed messages of the RPKI's publication and provisioning protocols (RFC 8181, RFC 6492), their
//! setup messages (RFC 8183), and certificate requests (RFC 6487), under keys that are held
//! elsewhere.
//!
//! This crate is the library `libcalmizsed` in Rust's words. The rules stand in that library, which
//! is proved; this crate adds none. Neither knows a signature scheme or holds a key:
//!
//! - To **receive**, a closure says of each [`Question`] whether a signature holds.
//! - To **create**, a [`Signer`] signs what it is handed.
//! - To **answer** a query, as a publication server, [`publication::decide`] takes what is known of
//!   the objects, which are yours to keep.
//!
//! A library for RSA can stand behind them, a program, or a device. `examples/receive.rs` has the
//! `openssl` command behind the closure.
//!
//! ```
//! # fn example_key() -> Result<Vec<u8>, Box<dyn std::error::Error>> {
//! #     let digits = std::fs::read_to_string("../../examples/rsa-key.hex")?;
//! #     let pairs = (0..digits.trim_end().len()).step_by(2);
//! #     Ok(pairs.map(|at| u8::from_str_radix(&digits[at..at + 2], 16)).collect::<Result<_, _>>()?)
//! # }
//! # fn main() -> Result<(), Box<dyn std::error::Error>> {
//! use calmizsed::{receive, Kind, PublicKey, Question, Time};
//!
//! fn signature_holds(question: Question<'_>) -> bool {
//!     // Here OpenSSL is asked, say. This believes everything.
//!     !question.signature.is_empty()
//! }
//!
//! let message = std::fs::read("../../examples/rsa-query.der")?;
//! # let der = example_key()?;
//! let key = PublicKey::from_der(der)?;
//! let when = Time::from_seconds(1_795_927_350); // Time::now(), in earnest
//! let receipt = receive(Kind::Publication, &message, &[key], when, signature_holds)?;
//! assert_eq!(receipt.text, std::fs::read_to_string("../../examples/query-list.xml")?.trim_end());
//! # Ok(())
//! # }
//! ```
//!
//! # Times, keys and texts
//!
//! Times are whole seconds from the year 0 to the end of the year 9999; what can be a [`Time`] is
//! taken as one. A [`PublicKey`] is a `SubjectPublicKeyInfo` in DER. Texts are documents of XML:
//! what is received is octets, and what is written anew is UTF-8.
//!
//! # Threads
//!
//! Any number of threads may be in calls at once: nothing is shared between calls, and nothing is
//! kept.

// `ffi` alone allows it; each other module forbids it.
#![deny(unsafe_code)]

mod call;
mod check;
mod ffi;
mod key;
mod question;
mod refusal;
mod sign;
mod time;

pub mod anchor;
pub mod message;
pub mod publication;
pub mod request;
pub mod setup;

pub use check::{Check, Checks};
pub use key::PublicKey;
pub use message::{content, inspect, read};
pub use question::{Answers, Part, Question, Questions};
pub use refusal::Refusal;
pub use sign::{CreateError, SerialNumber, Signer, SignerError};
pub use time::Time;

use message::Plan;
use sign::signature_of;

/// The page of the crate, whose example is tried.
#[cfg(doctest)]
#[doc = include_str!("../README.md")]
struct Readme;

/// The protocol of a message.
#[derive(Clone, Copy, Debug, PartialEq, Eq, Hash)]
pub enum Kind {
    /// The publication protocol (RFC 8181).
    Publication,
    /// The provisioning protocol (RFC 6492).
    Provisioning,
}

impl Kind {
    fn number(self) -> i32 {
        match self {
            Self::Publication => 1,
            Self::Provisioning => 2,
        }
    }
}

/// A message that was received.
#[derive(Clone, Debug, PartialEq, Eq, Hash)]
#[non_exhaustive]
pub struct Receipt {
    /// The message of the protocol, in XML, written anew.
    pub text: String,
    /// The place of the first key under which the message is accepted, in the keys that were handed
    /// in.
    pub place: usize,
    /// When the message says that it was signed. Who keeps it, and hands it in as the last time of
    /// [`receive_after`], admits no message of this partner twice.
    pub signing_time: Option<Time>,
}

/// The message of the protocol that a signed message holds, if all fourteen [checks](Check) hold at
/// this time under one of one to eight keys (RFC 6492, 3.1; RFC 8181, 2).
///
/// The octets begin with the signed message, in BER or DER; what stands behind it isn't read. The
/// closure answers each question once.
///
/// # Errors
///
/// Of these the first decides: `Usage`, `CmsDecode`, `XmlError`, `CertSyntax`, `InvalidCsrSyntax`,
/// `Validation`. `OutOfMemory` may come at any time.
///
/// ```
/// # fn example_key() -> Result<Vec<u8>, Box<dyn std::error::Error>> {
/// #     let digits = std::fs::read_to_string("../../examples/rsa-key.hex")?;
/// #     let pairs = (0..digits.trim_end().len()).step_by(2);
/// #     Ok(pairs.map(|at| u8::from_str_radix(&digits[at..at + 2], 16)).collect::<Result<_, _>>()?)
/// # }
/// # fn main() -> Result<(), Box<dyn std::error::Error>> {
/// use calmizsed::{receive, Kind, Time};
///
/// # let keys = [calmizsed::PublicKey::from_der(example_key()?)?];
/// let message = std::fs::read("../../examples/rsa-query.der")?;
/// let when = Time::from_seconds(1_795_927_350);
/// let refusal = receive(Kind::Publication, &message, &keys, when, |_| false).unwrap_err();
/// assert_eq!(refusal.name(), "Validation 3");
/// # Ok(())
/// # }
/// ```
pub fn receive<A>(
    kind: Kind,
    message: &[u8],
    keys: &[PublicKey],
    when: impl Into<Time>,
    answer: A,
) -> Result<Receipt, Refusal>
where
    A: FnMut(Question<'_>) -> bool,
{
    let answers = message::questions(message, keys)?.answer(answer);
    message::receive_answered(kind, message, keys, when, None, &answers)
}

/// As [`receive`], of a message that was signed later than the last one of this partner: who keeps
/// [`Receipt::signing_time`] and hands it in the next time, admits none twice.
///
/// # Errors
///
/// Those of `receive`, and then `NoTime` and `Replayed`.
pub fn receive_after<A>(
    kind: Kind,
    message: &[u8],
    keys: &[PublicKey],
    when: impl Into<Time>,
    last: impl Into<Time>,
    answer: A,
) -> Result<Receipt, Refusal>
where
    A: FnMut(Question<'_>) -> bool,
{
    let answers = message::questions(message, keys)?.answer(answer);
    message::receive_answered(kind, message, keys, when, Some(last.into()), &answers)
}

/// Which of the fourteen checks of a signed message hold under one key at this time, whether or not
/// one before fails.
///
/// # Errors
///
/// `Usage`, `CmsDecode`, `OutOfMemory`.
pub fn explain<A>(
    message: &[u8],
    key: &PublicKey,
    when: impl Into<Time>,
    answer: A,
) -> Result<Checks, Refusal>
where
    A: FnMut(Question<'_>) -> bool,
{
    let answers = message::questions(message, std::slice::from_ref(key))?.answer(answer);
    message::explain_answered(message, key, when, &answers)
}

/// A signed message, in DER, with the message of the protocol that the text is.
///
/// `issuer` holds the key that the partner knows, and `one_off` one that is drawn for this message
/// alone, and is then thrown away. The message is valid from 300 seconds before `when` to 300
/// seconds after it. `serial` is the serial number of its certificate, which was drawn too.
///
/// # Errors
///
/// `XmlError`, `CertSyntax`, `InvalidCsrSyntax`, `Moment`, `TooLong`, `IncompatibleKey`,
/// `KeyReused`, `Usage`, `OutOfMemory`, or what the signers give.
pub fn create(
    kind: Kind,
    text: impl AsRef<[u8]>,
    when: impl Into<Time>,
    issuer: &dyn Signer,
    one_off: &dyn Signer,
    serial: SerialNumber,
) -> Result<Vec<u8>, CreateError> {
    let plan = Plan {
        kind,
        text: text.as_ref(),
        when: when.into(),
        serial,
        issuing_key: issuer.public_key(),
        one_off_key: one_off.public_key(),
    };
    let parts = message::prepare(&plan)?;
    let signatures = message::Parts {
        attributes: signature_of(one_off, Part::Attributes, &parts.attributes)?,
        crl: signature_of(issuer, Part::Crl, &parts.crl)?,
        certificate: signature_of(issuer, Part::Certificate, &parts.certificate)?,
    };
    Ok(message::finish(&plan, &signatures)?)
}

/// The version of the library.
///
/// # Errors
///
/// None, with a library of this crate's version.
pub fn version() -> Result<String, Refusal> {
    call::text(0, ffi::version)
}
