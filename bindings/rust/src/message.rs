//! Signed messages, step by step: for answers and signatures that come from elsewhere.
//!
//! The calls of the crate's top that ask closures and signers, as [`receive`](crate::receive) and
//! [`create`](crate::create), are made of these. Here a caller can wait between two of them.
//!
//! ```
//! # fn example_key() -> Result<Vec<u8>, Box<dyn std::error::Error>> {
//! #     let digits = std::fs::read_to_string("../../examples/rsa-key.hex")?;
//! #     let pairs = (0..digits.trim_end().len()).step_by(2);
//! #     Ok(pairs.map(|at| u8::from_str_radix(&digits[at..at + 2], 16)).collect::<Result<_, _>>()?)
//! # }
//! # fn main() -> Result<(), Box<dyn std::error::Error>> {
//! use calmizsed::message::{questions, receive_answered};
//! use calmizsed::{Answers, Kind, PublicKey, Time};
//!
//! let message = std::fs::read("../../examples/rsa-query.der")?;
//! # let keys = [PublicKey::from_der(example_key()?)?];
//! let questions = questions(&message, &keys)?;
//! assert_eq!(questions.iter().len(), 3);
//!
//! // Here they are taken to what can verify signatures.
//! let answers = Answers::new(questions.digest(), &[true, true, true]);
//! let when = Time::from_seconds(1_795_927_350);
//! let receipt = receive_answered(Kind::Publication, &message, &keys, when, None, &answers)?;
//! assert_eq!(receipt.signing_time, Some(when));
//! # Ok(())
//! # }
//! ```
#![forbid(unsafe_code)]

use crate::call::{call, octets, record, tag, text, text_of};
use crate::{
    ffi, Answers, Checks, Kind, PublicKey, Questions, Receipt, Refusal, SerialNumber, Time,
};

/// Keys as they are handed in, one behind the other.
fn joined(keys: &[PublicKey]) -> Vec<u8> {
    keys.iter().flat_map(PublicKey::as_der).copied().collect()
}

/// The questions of the signed message with which these octets begin, in BER or DER, under one to
/// eight keys.
///
/// # Errors
///
/// `Usage`, `CmsDecode`, `OutOfMemory`.
pub fn questions(message: &[u8], keys: &[PublicKey]) -> Result<Questions, Refusal> {
    let keys = joined(keys);
    octets(message.len() + keys.len(), |out, outcome| {
        ffi::message_questions(message, &keys, out, outcome)
    })
    .map(Questions::of)
}

/// As [`receive`](crate::receive), or with a last time as [`receive_after`](crate::receive_after),
/// by answers to the questions of the same message and keys.
///
/// # Errors
///
/// Those of `receive_after`, and `OtherQuestions`.
pub fn receive_answered(
    kind: Kind,
    message: &[u8],
    keys: &[PublicKey],
    when: impl Into<Time>,
    last: Option<Time>,
    answers: &Answers,
) -> Result<Receipt, Refusal> {
    let (keys, when) = (joined(keys), when.into().seconds());
    let (has_last, last) = (i32::from(last.is_some()), last.map_or(0, Time::seconds));
    let Answers { digest, octets } = answers;
    let (written, outcome) = call(message.len(), |out, outcome| {
        ffi::message_receive(
            kind.number(),
            message,
            &keys,
            when,
            has_last,
            last,
            digest,
            octets,
            out,
            outcome,
        )
    })?;
    Ok(Receipt {
        text: text_of(written),
        place: outcome.place,
        signing_time: (outcome.has_signing_time == 1)
            .then(|| Time::from_seconds(outcome.signing_time)),
    })
}

/// As [`explain`](crate::explain), by answers to the questions of the same message under this key
/// alone.
///
/// # Errors
///
/// `Usage`, `CmsDecode`, `OtherQuestions`, `OutOfMemory`.
pub fn explain_answered(
    message: &[u8],
    key: &PublicKey,
    when: impl Into<Time>,
    answers: &Answers,
) -> Result<Checks, Refusal> {
    let (key, when) = (key.as_der(), when.into().seconds());
    let Answers {
        digest,
        octets: given,
    } = answers;
    octets(0, |out, outcome| {
        ffi::message_explain(message, key, when, digest, given, out, outcome)
    })
    .map(|checks| Checks::of(&checks))
}

/// What a signed message is made of, apart from its signatures.
#[derive(Clone, Copy, Debug, PartialEq, Eq, Hash)]
pub struct Plan<'a> {
    /// The protocol of the message.
    pub kind: Kind,
    /// The message of the protocol, in XML.
    pub text: &'a [u8],
    /// When it is made: it is valid from 300 seconds before to 300 seconds after.
    pub when: Time,
    /// The serial number of the certificate in it.
    pub serial: SerialNumber,
    /// The key that the partner knows.
    pub issuing_key: &'a PublicKey,
    /// The key that is drawn for this message alone, and thrown away.
    pub one_off_key: &'a PublicKey,
}

/// One thing for each part of a signed message that is signed: the octets that are to be signed, or
/// the signatures.
#[derive(Clone, Debug, PartialEq, Eq, Hash)]
pub struct Parts {
    /// Of the attributes, which the holder of the one-off key signs.
    pub attributes: Vec<u8>,
    /// Of the CRL, which the holder of the issuing key signs.
    pub crl: Vec<u8>,
    /// Of the certificate, which the holder of the issuing key signs.
    pub certificate: Vec<u8>,
}

/// What is to be signed of the message. No digest is made of it before.
///
/// # Errors
///
/// `Usage`, `XmlError`, `CertSyntax`, `InvalidCsrSyntax`, `Moment`, `TooLong`, `IncompatibleKey`,
/// `KeyReused`, `OutOfMemory`.
pub fn prepare(plan: &Plan<'_>) -> Result<Parts, Refusal> {
    let found = octets(plan.text.len(), |out, outcome| {
        ffi::message_prepare(
            plan.kind.number(),
            plan.text,
            plan.when.seconds(),
            plan.serial.as_octets(),
            plan.issuing_key.as_der(),
            plan.one_off_key.as_der(),
            out,
            outcome,
        )
    })?;
    Ok(Parts {
        attributes: record(&found, tag::ATTRIBUTES),
        crl: record(&found, tag::CRL),
        certificate: record(&found, tag::CERTIFICATE),
    })
}

/// The signed message, in DER, with these signatures of what [`prepare`] gives for the same plan.
/// They aren't checked, but for their lengths.
///
/// # Errors
///
/// Those of `prepare`.
pub fn finish(plan: &Plan<'_>, signatures: &Parts) -> Result<Vec<u8>, Refusal> {
    octets(2 * plan.text.len(), |out, outcome| {
        ffi::message_finish(
            plan.kind.number(),
            plan.text,
            plan.when.seconds(),
            plan.serial.as_octets(),
            plan.issuing_key.as_der(),
            plan.one_off_key.as_der(),
            &signatures.attributes,
            &signatures.crl,
            &signatures.certificate,
            out,
            outcome,
        )
    })
}

/// What is in the signed message with which these octets begin, as a JSON text. **Nothing of it is
/// checked.**
///
/// # Errors
///
/// `CmsDecode`, `OutOfMemory`.
pub fn inspect(message: &[u8]) -> Result<String, Refusal> {
    text(2 * message.len(), |out, outcome| {
        ffi::message_inspect(message, out, outcome)
    })
}

/// The content of the signed message with which these octets begin, if it has the digest that was
/// signed. **No signature is checked**: anyone can have made it. It is for looking at messages, and
/// not for acting on them.
///
/// # Errors
///
/// `CmsDecode`, `Validation` of check 2, `OutOfMemory`.
pub fn content(message: &[u8]) -> Result<Vec<u8>, Refusal> {
    octets(message.len(), |out, outcome| {
        ffi::message_content(message, out, outcome)
    })
}

/// The message of the protocol that this text is, in XML, written anew, as
/// [`create`](crate::create) has it signed.
///
/// # Errors
///
/// `XmlError`, `CertSyntax`, `InvalidCsrSyntax`, `OutOfMemory`.
pub fn read(kind: Kind, message: impl AsRef<[u8]>) -> Result<String, Refusal> {
    let message = message.as_ref();
    text(message.len(), |out, outcome| {
        ffi::text_read(kind.number(), message, out, outcome)
    })
}
