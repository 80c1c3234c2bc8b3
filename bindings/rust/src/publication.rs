//! What a publication server replies (RFC 8181, 2).
//!
//! The server is yours, and so are the objects: in a database, say. [`decide`] needs to know no more
//! of them than the query names. Its reply is then made a signed message by
//! [`create`](crate::create).
//!
//! ```
//! # fn main() -> Result<(), Box<dyn std::error::Error>> {
//! use calmizsed::publication::{decide, Known};
//! use calmizsed::Refusal;
//!
//! let query = concat!(
//!     r#"<msg xmlns="http://www.hactrn.net/uris/rpki/publication-spec/" version="4" type="query">"#,
//!     r#"<publish tag="a" uri="rsync://localhost/ca/a.cer">YQ==</publish></msg>"#
//! );
//! let uri = "rsync://localhost/ca/a.cer";
//! let base = "rsync://localhost/ca/";
//!
//! // Where there is no such object, it is published.
//! let decision = decide(base, query, [Known { uri, sha256: None }])?;
//! assert!(decision.changes && decision.reply.contains("<success/>"));
//!
//! // Where there is one, the query should have named its SHA-256.
//! let decision = decide(base, query, [Known { uri, sha256: Some([0; 32]) }])?;
//! assert!(!decision.changes && decision.reply.contains("object_already_present"));
//!
//! // Where nothing is known of the URI, nothing is decided.
//! assert_eq!(decide(base, query, []), Err(Refusal::UnknownObject));
//! # Ok(())
//! # }
//! ```
#![forbid(unsafe_code)]

use crate::call::{octets, push_record, records, tag, text, text_of};
use crate::{ffi, Refusal};

/// What is known of a URI: which object is there, or that there is none.
#[derive(Clone, Copy, Debug, PartialEq, Eq, Hash)]
pub struct Known<'a> {
    /// The rsync URI.
    pub uri: &'a str,
    /// The SHA-256 of the object that is there, or none where no object is.
    pub sha256: Option<[u8; 32]>,
}

/// What a publication server replies to a message, and what it does.
#[derive(Clone, Debug, PartialEq, Eq, Hash)]
#[non_exhaustive]
pub struct Decision {
    /// The reply, in XML.
    pub reply: String,
    /// Whether the changes that the message asks for are to be made: all of them, one behind the
    /// other. Else nothing is to be changed.
    pub changes: bool,
}

/// What a publication server replies to a message, and whether it makes the changes that are asked
/// for, by what is known of the objects: of those that the changes name, or, where the message asks
/// for the list, of all objects of its sender.
///
/// `base` is the rsync URI of the directory in which the sender may publish. A URI is in it where
/// it begins with it, so the base should end with a slash. `query` is the message, in XML, as
/// [`receive`](crate::receive) gave it: whom it is from isn't looked at here. Of a URI the first
/// that is known counts, and a list has the objects in their order.
///
/// Where the changes are made, the reply is the success. Else it is the list, or the error of the
/// first change that can't be made behind those before it; and to a message that is no query it is
/// the error `xml_error`. All this is so as long as what is known is so: look the objects up, make
/// the changes and keep them in one transaction.
///
/// # Errors
///
/// `Usage` where the base or a known URI is no rsync URI, `XmlError`, `UnknownObject` where a change
/// names a URI of which nothing is known, `OutOfMemory`.
pub fn decide<'a>(
    base: &str,
    query: impl AsRef<[u8]>,
    known: impl IntoIterator<Item = Known<'a>>,
) -> Result<Decision, Refusal> {
    let (query, known) = (query.as_ref(), records_of(known));
    octets(query.len() + known.len(), |out, outcome| {
        ffi::publication_decide(base.as_bytes(), query, &known, out, outcome)
    })
    .map(|record| decision_in(&record))
}

/// What is known, as it is handed in.
fn records_of<'a>(known: impl IntoIterator<Item = Known<'a>>) -> Vec<u8> {
    let mut records = Vec::new();
    for Known { uri, sha256 } in known {
        match sha256 {
            Some(digest) => {
                push_record(&mut records, tag::OBJECT, &[&digest, uri.as_bytes()]);
            }
            None => push_record(&mut records, tag::NO_OBJECT, &[uri.as_bytes()]),
        }
    }
    records
}

/// The decision that the one record of a result says.
fn decision_in(octets: &[u8]) -> Decision {
    let (tag, range) = records(octets).next().expect("the library writes a record");
    Decision {
        reply: text_of(octets[range].to_vec()),
        changes: tag == tag::REPLY_AND_CHANGES,
    }
}

/// What a publication server replies to a message that [`receive`](crate::receive) refused, in XML:
/// the error `bad_cms_signature` where it is no signed message or a check fails, and `xml_error`
/// where its content is no message of the protocol.
///
/// # Errors
///
/// `Usage` of another refusal, `OutOfMemory`.
///
/// ```
/// # fn main() -> Result<(), calmizsed::Refusal> {
/// use calmizsed::inspect;
/// use calmizsed::publication::refusal_reply;
///
/// // As `receive` refuses it too.
/// let refusal = inspect(b"no message").unwrap_err();
/// assert!(refusal_reply(&refusal)?.contains("bad_cms_signature"));
/// # Ok(())
/// # }
/// ```
pub fn refusal_reply(refusal: &Refusal) -> Result<String, Refusal> {
    text(0, |out, outcome| {
        ffi::publication_refuse(refusal.status(), out, outcome)
    })
}

#[cfg(test)]
mod tests {
    use super::{decide, decision_in, records_of, refusal_reply, Known};
    use crate::{Check, Refusal};

    const BASE: &str = "rsync://localhost/ca/";
    const LIST: &str = concat!(
        r#"<msg xmlns="http://www.hactrn.net/uris/rpki/publication-spec/" version="4" type="query">"#,
        "<list/></msg>"
    );

    #[test]
    fn what_is_known_is_records() {
        let known = [
            Known {
                uri: "u",
                sha256: Some([7; 32]),
            },
            Known {
                uri: "vw",
                sha256: None,
            },
        ];
        let mut wanted = vec![22, 0, 0, 0, 0, 0, 0, 0, 33];
        wanted.extend([7; 32]);
        wanted.extend(b"u\x17\0\0\0\0\0\0\0\x02vw");
        assert_eq!(records_of(known), wanted);
    }

    #[test]
    fn the_tag_says_whether_changes_are_made() {
        for (tag, changes) in [(20, false), (21, true)] {
            let decision = decision_in(&[tag, 0, 0, 0, 0, 0, 0, 0, 1, b'a']);
            assert_eq!((decision.reply.as_str(), decision.changes), ("a", changes));
        }
    }

    #[test]
    fn a_base_or_a_known_uri_that_is_none_is_wrong_use() {
        let known = |uri| [Known { uri, sha256: None }];
        for (base, uri) in [
            ("", BASE),
            ("https://localhost/ca/", BASE),
            (BASE, ""),
            (BASE, "rsync://local host/ca/"),
        ] {
            let refused = decide(base, LIST, known(uri));
            assert_eq!(refused, Err(Refusal::Usage), "{base} {uri}");
        }
        let refused = decide(BASE, "<a/>", known(BASE));
        assert_eq!(refused, Err(Refusal::XmlError));
    }

    #[test]
    fn refusals_of_a_receipt_have_replies() {
        let check = Check::numbered(3).expect("a check");
        for (refusal, code) in [
            (Refusal::CmsDecode, "bad_cms_signature"),
            (Refusal::Validation(check), "bad_cms_signature"),
            (Refusal::XmlError, "xml_error"),
        ] {
            let reply = refusal_reply(&refusal).expect("a reply");
            assert!(
                reply.contains(&format!("<report_error error_code=\"{code}\">")),
                "{reply}"
            );
        }
        for refusal in [Refusal::Usage, Refusal::NoTime, Refusal::UnknownObject] {
            assert_eq!(refusal_reply(&refusal), Err(Refusal::Usage));
        }
    }
}
