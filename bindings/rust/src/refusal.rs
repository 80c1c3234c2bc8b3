//! Why there is no result.
#![forbid(unsafe_code)]

use crate::ffi::Outcome;
use crate::{Check, Time};
use std::error::Error;
use std::fmt;

/// Why the library gives no result.
///
/// The variants have the names that the programs write, and [`status`](Refusal::status) is the exit
/// status of the programs.
///
/// ```
/// use calmizsed::{inspect, Refusal};
///
/// let refusal = inspect(b"no message").unwrap_err();
/// assert_eq!(refusal, Refusal::CmsDecode);
/// assert_eq!((refusal.status(), refusal.check()), (4, None));
/// assert_eq!(refusal.to_string(), "CmsDecode: the octets begin with no signed message");
/// ```
#[derive(Clone, Debug, PartialEq, Eq, Hash)]
#[non_exhaustive]
pub enum Refusal {
    /// An argument is none of those that are allowed, or there are more or fewer answers than
    /// questions.
    Usage,
    /// The octets begin with no signed message.
    CmsDecode,
    /// The text, or the content of the signed message, has not the form that is asked for.
    XmlError,
    /// The text has its form, and the octets in the place of a certificate begin with none.
    CertSyntax,
    /// The octets, or those in the place of the certificate request, begin with none.
    InvalidCsrSyntax,
    /// The octets, or those in the place of the trust anchor, begin with no identity certificate.
    InvalidTaCertEncoding,
    /// A check of the trust anchor's certificate fails.
    InvalidTaCert,
    /// This check of the signed message fails, and those before it hold. Under several keys it is
    /// the greatest of the first that fail, one under each.
    Validation(Check),
    /// The certificate request isn't signed under its own key.
    Signature,
    /// A key that is to sign is no RSA key.
    IncompatibleKey,
    /// The one-off key is the issuing key.
    KeyReused,
    /// The 300 seconds before or after the time leave the years 1970 to 9999.
    Moment,
    /// A key or a signature has more than 2^16 octets, or a message's text more than 2^31.
    TooLong,
    /// Memory ran out. The call can be made again.
    OutOfMemory,
    /// The answers are to other questions.
    OtherQuestions,
    /// A last time was handed in, and the message doesn't say when it was signed.
    NoTime,
    /// The message was signed no later than the last time that was handed in.
    Replayed {
        /// That last time.
        last: Time,
        /// When the message was signed.
        signing_time: Time,
    },
    /// The query names a URI of which nothing is known.
    UnknownObject,
    /// What a library of another version may say.
    Other {
        /// What it calls this.
        name: String,
        /// What its call returned.
        status: i32,
    },
}

impl Refusal {
    /// That of a call without a result.
    pub(crate) fn of(outcome: &Outcome) -> Self {
        let length = outcome.name.iter().position(|&octet| octet == 0);
        let name = String::from_utf8_lossy(&outcome.name[..length.unwrap_or(outcome.name.len())]);
        let known = match name.split(' ').next().unwrap_or_default() {
            "Usage" => Some(Self::Usage),
            "CmsDecode" => Some(Self::CmsDecode),
            "XmlError" => Some(Self::XmlError),
            "CertSyntax" => Some(Self::CertSyntax),
            "InvalidCsrSyntax" => Some(Self::InvalidCsrSyntax),
            "InvalidTaCertEncoding" => Some(Self::InvalidTaCertEncoding),
            "InvalidTaCert" => Some(Self::InvalidTaCert),
            "Validation" => Check::numbered(outcome.check).map(Self::Validation),
            "Signature" => Some(Self::Signature),
            "IncompatibleKey" => Some(Self::IncompatibleKey),
            "KeyReused" => Some(Self::KeyReused),
            "Moment" => Some(Self::Moment),
            "TooLong" => Some(Self::TooLong),
            "OutOfMemory" => Some(Self::OutOfMemory),
            "OtherQuestions" => Some(Self::OtherQuestions),
            "NoTime" => Some(Self::NoTime),
            "Replayed" => Some(Self::Replayed {
                last: Time::from_seconds(outcome.last_time),
                signing_time: Time::from_seconds(outcome.signing_time),
            }),
            "UnknownObject" => Some(Self::UnknownObject),
            _ => None,
        };
        known
            .filter(|known| known.status() == outcome.status)
            .unwrap_or_else(|| Self::Other {
                name: name.into_owned(),
                status: outcome.status,
            })
    }

    /// What the programs write: the variant's name, and the number of the check or the times.
    #[must_use]
    pub fn name(&self) -> String {
        match self {
            Self::Validation(check) => format!("Validation {}", check.number()),
            Self::Replayed { last, signing_time } => format!("Replayed {last} {signing_time}"),
            Self::Other { name, .. } => name.clone(),
            named => format!("{named:?}"),
        }
    }

    /// The exit status of the programs.
    #[must_use]
    pub fn status(&self) -> i32 {
        match self {
            Self::Usage => 2,
            Self::CmsDecode => 4,
            Self::XmlError
            | Self::CertSyntax
            | Self::InvalidCsrSyntax
            | Self::InvalidTaCertEncoding
            | Self::InvalidTaCert => 5,
            Self::Validation(_) | Self::Signature => 6,
            Self::IncompatibleKey | Self::KeyReused => 7,
            Self::Moment => 8,
            Self::TooLong => 9,
            Self::OutOfMemory => 12,
            Self::OtherQuestions => 14,
            Self::NoTime | Self::Replayed { .. } => 15,
            Self::UnknownObject => 17,
            Self::Other { status, .. } => *status,
        }
    }

    /// The check of the signed message that fails, if that is why.
    #[must_use]
    pub fn check(&self) -> Option<Check> {
        match self {
            Self::Validation(check) => Some(*check),
            _ => None,
        }
    }

    /// The reason in words, but for that of a check.
    fn reason(&self) -> &'static str {
        match self {
            Self::Usage => "an argument is none of those that are allowed",
            Self::CmsDecode => "the octets begin with no signed message",
            Self::XmlError => "the text has not the form that is asked for",
            Self::CertSyntax => "the octets in the place of a certificate begin with none",
            Self::InvalidCsrSyntax => {
                "the octets in the place of the certificate request begin with none"
            }
            Self::InvalidTaCertEncoding => {
                "the octets in the place of the trust anchor begin with no identity certificate"
            }
            Self::InvalidTaCert => "a check of the trust anchor's certificate fails",
            Self::Validation(_) => "a check of the signed message fails",
            Self::Signature => "the certificate request isn't signed under its own key",
            Self::IncompatibleKey => "a key that is to sign is no RSA key",
            Self::KeyReused => "the one-off key is the issuing key",
            Self::Moment => "the window around the time leaves the years 1970 to 9999",
            Self::TooLong => "a text, a key or a signature is too long",
            Self::OutOfMemory => "memory ran out",
            Self::OtherQuestions => "the answers are to other questions",
            Self::NoTime => "the message doesn't say when it was signed",
            Self::Replayed { .. } => "the message was signed no later than the last one",
            Self::UnknownObject => "the query names a URI of which nothing is known",
            Self::Other { .. } => "the library is of another version",
        }
    }
}

impl fmt::Display for Refusal {
    fn fmt(&self, formatter: &mut fmt::Formatter<'_>) -> fmt::Result {
        match self {
            Self::Validation(check) => {
                let (number, at) = (check.number(), check.look_at());
                write!(
                    formatter,
                    "Validation {number}: it doesn't hold that {check}; look at {at}"
                )
            }
            refused => write!(formatter, "{}: {}", refused.name(), refused.reason()),
        }
    }
}

impl Error for Refusal {}

#[cfg(test)]
mod tests {
    use super::Refusal;
    use crate::ffi::Outcome;
    use crate::{Check, Time};

    fn told(name: &str, status: i32) -> Outcome {
        let mut outcome = Outcome::new();
        outcome.status = status;
        outcome.name[..name.len()].copy_from_slice(name.as_bytes());
        outcome
    }

    /// The names that the header lists, but for `Ok` and `NoRoom`, with their statuses.
    fn names() -> Vec<(String, i32)> {
        let header = concat!(env!("CARGO_MANIFEST_DIR"), "/../../include/calmizsed.h");
        let header = std::fs::read_to_string(header).expect("the header");
        let (_, list) = header
            .split_once("enum calmizsed_status {")
            .expect("begins");
        let (list, _) = list.split_once("};").expect("ends");
        let mut names = Vec::new();
        for entry in list.split("/*").skip(1) {
            let (said, number) = entry.split_once("*/").expect("a comment");
            let number = number.split('=').nth(1).expect("a number");
            let status = number.trim().trim_end_matches(',').parse().expect("digits");
            let listed = said.lines().filter_map(|line| line.split_once(':'));
            names.extend(
                listed
                    .flat_map(|(listed, _)| listed.split(','))
                    .map(|name| {
                        let word = name.trim_start_matches([' ', '*']).split(' ').next();
                        (word.expect("a word").to_owned(), status)
                    }),
            );
        }
        names.retain(|(name, _)| name != "Ok" && name != "NoRoom");
        names
    }

    #[test]
    fn names_of_the_header_are_known_with_their_statuses() {
        let names = names();
        assert_eq!(
            names.len(),
            19,
            "InvalidCsrSyntax stands there twice: {names:?}"
        );
        for (name, status) in names {
            let mut outcome = told(&name, status);
            outcome.check = i32::from(name == "Validation");
            let refusal = Refusal::of(&outcome);
            assert!(
                !matches!(refusal, Refusal::Other { .. }),
                "{name} is unknown"
            );
            assert_eq!(refusal.status(), status, "{name}");
            assert!(refusal.name().starts_with(&name), "{name}");
        }
    }

    #[test]
    fn a_replayed_message_has_both_times() {
        let mut outcome = told("Replayed 1700000000 1600000000", 15);
        (outcome.last_time, outcome.signing_time) = (1_700_000_000, 1_600_000_000);
        let refusal = Refusal::of(&outcome);
        let last = Time::from_seconds(1_700_000_000);
        let signing_time = Time::from_seconds(1_600_000_000);
        assert_eq!(refusal, Refusal::Replayed { last, signing_time });
        assert_eq!(refusal.name(), "Replayed 1700000000 1600000000");
    }

    #[test]
    fn what_another_version_says_is_told_as_it_is() {
        for (name, status, check) in [
            ("Novel 3", 99, 0),
            ("Usage", 3, 0),
            ("Validation 15", 6, 15),
        ] {
            let mut outcome = told(name, status);
            outcome.check = check;
            let other = Refusal::Other {
                name: name.to_owned(),
                status,
            };
            assert_eq!(Refusal::of(&outcome), other);
            assert_eq!((other.name().as_str(), other.status()), (name, status));
        }
    }

    #[test]
    fn a_failed_check_says_what_to_look_at() {
        let check = Check::numbered(5).expect("a check");
        assert_eq!(
            Refusal::Validation(check).to_string(),
            "Validation 5: it doesn't hold that the time is in the certificate's validity; look at your \
             clock, or the sender's; an old message that came again"
        );
    }
}
