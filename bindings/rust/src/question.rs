//! Which signatures hold: questions, and their answers.
#![forbid(unsafe_code)]

use crate::call::{records, tag};
use std::ops::Range;

/// What was signed, or is to be signed.
#[derive(Clone, Copy, Debug, PartialEq, Eq, Hash)]
#[non_exhaustive]
pub enum Part {
    /// The attributes of a signed message.
    Attributes,
    /// The certificate in a signed message.
    Certificate,
    /// A CRL in a signed message.
    Crl,
    /// A trust anchor's certificate.
    Anchor,
    /// A certificate request.
    Request,
}

impl Part {
    fn tagged(tag: u8) -> Option<Self> {
        match tag {
            tag::ATTRIBUTES => Some(Self::Attributes),
            tag::CERTIFICATE => Some(Self::Certificate),
            tag::CRL => Some(Self::Crl),
            tag::ANCHOR => Some(Self::Anchor),
            tag::REQUEST => Some(Self::Request),
            _ => None,
        }
    }

    /// Its name, as the programs write it.
    #[must_use]
    pub fn name(self) -> &'static str {
        match self {
            Self::Attributes => "attributes",
            Self::Certificate => "certificate",
            Self::Crl => "crl",
            Self::Anchor => "anchor",
            Self::Request => "request",
        }
    }
}

/// Is `signature` one of `octets` under `key`, of RSA with SHA-256 in PKCS #1 v1.5 (RFC 8017, 8.2)?
///
/// Of a key that is no RSA key the answer is no. RPKI's keys have 2048 bits (RFC 7935): one with
/// fewer bits can be answered no too.
#[derive(Clone, Copy, Debug, PartialEq, Eq, Hash)]
pub struct Question<'a> {
    /// What was signed.
    pub part: Part,
    /// The public key: a `SubjectPublicKeyInfo` in DER.
    pub key: &'a [u8],
    /// The octets that were signed. No digest was made of them.
    pub octets: &'a [u8],
    /// The signature.
    pub signature: &'a [u8],
}

/// Where a question's octets stand.
#[derive(Clone, Debug, PartialEq, Eq, Hash)]
struct Places {
    part: Part,
    key: Range<usize>,
    octets: Range<usize>,
    signature: Range<usize>,
}

/// The questions of a signed message, a trust anchor or a certificate request.
///
/// Most callers need none: [`receive`](crate::receive) asks a closure. Questions serve where
/// answers come from elsewhere, as from another machine or in asynchronous code.
#[derive(Clone, Debug, PartialEq, Eq, Hash)]
pub struct Questions {
    records: Vec<u8>,
    asked: Vec<Places>,
    digest: Range<usize>,
}

impl Questions {
    /// Those that the library wrote: what is asked under a key of its own comes first; the other
    /// parts are asked under each of the keys behind them.
    pub(crate) fn of(records_of: Vec<u8>) -> Self {
        let (mut asked, mut shared, mut digest) = (Vec::new(), Vec::new(), 0..0);
        {
            let mut left = records(&records_of);
            while let Some((tag, range)) = left.next() {
                match tag {
                    tag::OWN_KEY => asked.extend(
                        left.next()
                            .and_then(|(tag, octets)| places(tag, range, octets, left.next()?.1)),
                    ),
                    tag::KEY => asked.extend(shared.iter().map(|one: &Places| Places {
                        key: range.clone(),
                        ..one.clone()
                    })),
                    tag::DIGEST => digest = range,
                    tag => shared.extend(
                        left.next()
                            .and_then(|(_, signature)| places(tag, 0..0, range, signature)),
                    ),
                }
            }
        }
        Self {
            records: records_of,
            asked,
            digest,
        }
    }

    /// The questions, in the order of their answers.
    #[must_use]
    pub fn iter(&self) -> impl ExactSizeIterator<Item = Question<'_>> + '_ {
        self.asked.iter().map(|places| Question {
            part: places.part,
            key: &self.records[places.key.clone()],
            octets: &self.records[places.octets.clone()],
            signature: &self.records[places.signature.clone()],
        })
    }

    /// The digest of the questions, to which their answers are bound.
    #[must_use]
    pub fn digest(&self) -> &[u8] {
        &self.records[self.digest.clone()]
    }

    /// The answers that a closure gives, which is asked each question once, in their order.
    pub fn answer<A>(&self, answer: A) -> Answers
    where
        A: FnMut(Question<'_>) -> bool,
    {
        let answers: Vec<_> = self.iter().map(answer).collect();
        Answers::new(self.digest(), &answers)
    }

    /// As [`answer`](Questions::answer), of a closure that can fail.
    ///
    /// # Errors
    ///
    /// The first that the closure gives.
    pub fn try_answer<A, E>(&self, answer: A) -> Result<Answers, E>
    where
        A: FnMut(Question<'_>) -> Result<bool, E>,
    {
        let answers: Vec<_> = self.iter().map(answer).collect::<Result<_, _>>()?;
        Ok(Answers::new(self.digest(), &answers))
    }
}

fn places(
    tag: u8,
    key: Range<usize>,
    octets: Range<usize>,
    signature: Range<usize>,
) -> Option<Places> {
    let part = Part::tagged(tag)?;
    Some(Places {
        part,
        key,
        octets,
        signature,
    })
}

/// Answers, which are bound to their questions: to others they are refused as
/// [`OtherQuestions`](crate::Refusal::OtherQuestions).
#[derive(Clone, Debug, PartialEq, Eq, Hash)]
pub struct Answers {
    pub(crate) digest: Vec<u8>,
    pub(crate) octets: Vec<u8>,
}

impl Answers {
    /// These, in the order of the questions with this [digest](Questions::digest).
    #[must_use]
    pub fn new(digest: &[u8], answers: &[bool]) -> Self {
        Self {
            digest: digest.to_vec(),
            octets: answers.iter().map(|&answer| u8::from(answer)).collect(),
        }
    }
}
