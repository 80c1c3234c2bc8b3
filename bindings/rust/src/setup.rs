//! Setup messages (RFC 8183, 5.2).
//!
//! ```
//! # fn main() -> Result<(), Box<dyn std::error::Error>> {
//! use calmizsed::{anchor, setup, Time};
//!
//! let request = std::fs::read("../../examples/rsa-child-request.xml")?;
//! let when = Time::from_seconds(1_800_000_000);
//! // A closure that believes everything: yours asks OpenSSL, say.
//! let text = setup::receive(setup::Kind::ChildRequest, &request, when, |_question| true)?;
//! assert!(text.starts_with("<child_request "));
//!
//! // The key under which the child's messages are received.
//! let key = anchor::key(&setup::anchor(setup::Kind::ChildRequest, &request)?)?;
//! assert_eq!(key.as_der().len(), 294);
//! # Ok(())
//! # }
//! ```
#![forbid(unsafe_code)]

use crate::call::{octets, text};
use crate::{ffi, Answers, Question, Questions, Refusal, Time};

/// Which setup message it is.
#[derive(Clone, Copy, Debug, PartialEq, Eq, Hash)]
pub enum Kind {
    /// `child_request` (RFC 8183, 5.2.1).
    ChildRequest,
    /// `parent_response` (RFC 8183, 5.2.2).
    ParentResponse,
    /// `publisher_request` (RFC 8183, 5.2.3).
    PublisherRequest,
    /// `repository_response` (RFC 8183, 5.2.4).
    RepositoryResponse,
}

impl Kind {
    fn number(self) -> i32 {
        match self {
            Self::ChildRequest => 1,
            Self::ParentResponse => 2,
            Self::PublisherRequest => 3,
            Self::RepositoryResponse => 4,
        }
    }
}

/// The setup message of this kind that the text is, in XML, written anew, if the five checks of its
/// trust anchor's certificate hold at this time.
///
/// The closure answers whether the certificate is signed under its own key. It is asked where the
/// certificate names that as its issuer's; else its signature isn't looked at. That the checks hold
/// says only that the certificate came whole: whom it is from has to be known some other way
/// (RFC 8183, 8).
///
/// # Errors
///
/// `XmlError`, `InvalidTaCertEncoding`, `InvalidTaCert`, `Usage`, `OutOfMemory`.
pub fn receive<A>(
    kind: Kind,
    message: impl AsRef<[u8]>,
    when: impl Into<Time>,
    answer: A,
) -> Result<String, Refusal>
where
    A: FnMut(Question<'_>) -> bool,
{
    let message = message.as_ref();
    let answers = questions(kind, message)?.answer(answer);
    receive_answered(kind, message, when, &answers)
}

/// The questions of the trust anchor's certificate in the setup message of this kind that the text
/// is.
///
/// # Errors
///
/// `XmlError`, `InvalidTaCertEncoding`, `OutOfMemory`.
pub fn questions(kind: Kind, message: impl AsRef<[u8]>) -> Result<Questions, Refusal> {
    let message = message.as_ref();
    octets(message.len(), |out, outcome| {
        ffi::setup_questions(kind.number(), message, out, outcome)
    })
    .map(Questions::of)
}

/// As [`receive`], by answers to the questions of the same message.
///
/// # Errors
///
/// Those of `receive`, and `OtherQuestions`.
pub fn receive_answered(
    kind: Kind,
    message: impl AsRef<[u8]>,
    when: impl Into<Time>,
    answers: &Answers,
) -> Result<String, Refusal> {
    let (message, when) = (message.as_ref(), when.into().seconds());
    let Answers { digest, octets } = answers;
    text(message.len(), |out, outcome| {
        ffi::setup_receive(kind.number(), message, when, digest, octets, out, outcome)
    })
}

/// The setup message of this kind that the text is, in XML, written anew. **Its certificate isn't
/// checked.**
///
/// # Errors
///
/// `XmlError`, `OutOfMemory`.
pub fn read(kind: Kind, message: impl AsRef<[u8]>) -> Result<String, Refusal> {
    let message = message.as_ref();
    text(message.len(), |out, outcome| {
        ffi::setup_read(kind.number(), message, out, outcome)
    })
}

/// The trust anchor's certificate in the setup message of this kind that the text is, in DER. **It
/// isn't checked**: [`receive`] does that.
///
/// # Errors
///
/// `XmlError`, `InvalidTaCertEncoding`, `OutOfMemory`.
pub fn anchor(kind: Kind, message: impl AsRef<[u8]>) -> Result<Vec<u8>, Refusal> {
    let message = message.as_ref();
    octets(message.len(), |out, outcome| {
        ffi::setup_anchor(kind.number(), message, out, outcome)
    })
}
