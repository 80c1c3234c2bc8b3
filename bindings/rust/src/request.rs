//! Certificate requests (RFC 6487, 6), and those in issue requests (RFC 6492, 3.4.1).
#![forbid(unsafe_code)]

use crate::call::{octets, record, tag};
use crate::sign::signature_of;
use crate::{ffi, Answers, CreateError, Part, PublicKey, Question, Questions, Refusal, Signer};

/// Where the certificate that is asked for says its holder publishes.
#[derive(Clone, Copy, Debug, PartialEq, Eq, Hash)]
pub struct Locations<'a> {
    /// The rsync URI of the folder. A slash is added where it ends with none, but for its module,
    /// which has to have one: as `rsync://localhost/ca/`.
    pub repository: &'a str,
    /// The rsync URI of the manifest.
    pub manifest: &'a str,
    /// The https URI of the update notification file (RFC 8182), if there is one.
    pub notify: Option<&'a str>,
}

impl Locations<'_> {
    /// For the library an empty text is no URI at all, so here it is refused.
    fn notify(&self) -> Result<&[u8], Refusal> {
        match self.notify {
            Some("") => Err(Refusal::Usage),
            notify => Ok(notify.unwrap_or_default().as_bytes()),
        }
    }
}

/// The key of the certificate request with which these octets begin, in DER, if it is signed under
/// it, as the closure answers.
///
/// # Errors
///
/// `InvalidCsrSyntax`, `Signature`, `Usage`, `OutOfMemory`.
pub fn verify<A>(request: &[u8], answer: A) -> Result<PublicKey, Refusal>
where
    A: FnMut(Question<'_>) -> bool,
{
    verify_answered(request, &questions(request)?.answer(answer))
}

/// As [`verify`], of the certificate request in the issue request that the text is.
///
/// # Errors
///
/// Those of `verify`, `XmlError` and `CertSyntax`.
pub fn verify_issue<A>(message: impl AsRef<[u8]>, answer: A) -> Result<PublicKey, Refusal>
where
    A: FnMut(Question<'_>) -> bool,
{
    let message = message.as_ref();
    verify_issue_answered(message, &issue_questions(message)?.answer(answer))
}

/// The question of the certificate request with which these octets begin.
///
/// # Errors
///
/// `InvalidCsrSyntax`, `OutOfMemory`.
pub fn questions(request: &[u8]) -> Result<Questions, Refusal> {
    octets(request.len(), |out, outcome| {
        ffi::request_questions(request, out, outcome)
    })
    .map(Questions::of)
}

/// As [`questions`], of the certificate request in the issue request that the text is.
///
/// # Errors
///
/// `XmlError`, `CertSyntax`, `InvalidCsrSyntax`, `OutOfMemory`.
pub fn issue_questions(message: impl AsRef<[u8]>) -> Result<Questions, Refusal> {
    let message = message.as_ref();
    octets(message.len(), |out, outcome| {
        ffi::issue_questions(message, out, outcome)
    })
    .map(Questions::of)
}

/// As [`verify`], by an answer to the question of the same request.
///
/// # Errors
///
/// Those of `verify`, and `OtherQuestions`.
pub fn verify_answered(request: &[u8], answers: &Answers) -> Result<PublicKey, Refusal> {
    octets(request.len(), |out, outcome| {
        ffi::request_verify(request, &answers.digest, &answers.octets, out, outcome)
    })
    .and_then(PublicKey::from_der)
}

/// As [`verify_issue`], by an answer to the question of the same issue request.
///
/// # Errors
///
/// Those of `verify_issue`, and `OtherQuestions`.
pub fn verify_issue_answered(
    message: impl AsRef<[u8]>,
    answers: &Answers,
) -> Result<PublicKey, Refusal> {
    let message = message.as_ref();
    octets(message.len(), |out, outcome| {
        ffi::issue_verify(message, &answers.digest, &answers.octets, out, outcome)
    })
    .and_then(PublicKey::from_der)
}

/// A certificate request for the signer's key, in DER.
///
/// # Errors
///
/// `Usage`, `TooLong`, `IncompatibleKey`, `OutOfMemory`, or the signer's.
pub fn create(signer: &dyn Signer, locations: &Locations<'_>) -> Result<Vec<u8>, CreateError> {
    let key = signer.public_key();
    let signature = signature_of(signer, Part::Request, &prepare(key, locations)?)?;
    Ok(finish(key, locations, &signature)?)
}

/// What is to be signed of a certificate request for the key, by its holder.
///
/// # Errors
///
/// `Usage`, `TooLong`, `IncompatibleKey`, `OutOfMemory`.
pub fn prepare(key: &PublicKey, locations: &Locations<'_>) -> Result<Vec<u8>, Refusal> {
    let (repository, manifest) = (
        locations.repository.as_bytes(),
        locations.manifest.as_bytes(),
    );
    let notify = locations.notify()?;
    octets(key.as_der().len(), |out, outcome| {
        ffi::request_prepare(key.as_der(), repository, manifest, notify, out, outcome)
    })
    .map(|found| record(&found, tag::REQUEST))
}

/// The certificate request, in DER, with this signature of what [`prepare`] gives for the same
/// arguments. It isn't checked, but for its length.
///
/// # Errors
///
/// Those of `prepare`.
pub fn finish(
    key: &PublicKey,
    locations: &Locations<'_>,
    signature: &[u8],
) -> Result<Vec<u8>, Refusal> {
    let (repository, manifest) = (
        locations.repository.as_bytes(),
        locations.manifest.as_bytes(),
    );
    let (key, notify) = (key.as_der(), locations.notify()?);
    octets(key.len() + signature.len(), |out, outcome| {
        ffi::request_finish(key, repository, manifest, notify, signature, out, outcome)
    })
}
