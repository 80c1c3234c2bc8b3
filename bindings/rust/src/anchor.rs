//! Trust anchors: the identity certificates in setup messages (RFC 8183, 5.1).
#![forbid(unsafe_code)]

use crate::call::{octets, record, tag};
use crate::sign::signature_of;
use crate::{ffi, CreateError, Part, PublicKey, Refusal, Signer, Time};

/// The signer's own certificate, in DER, as a setup message holds it, valid from one time to
/// another.
///
/// # Errors
///
/// `Usage`, `TooLong`, `IncompatibleKey`, `OutOfMemory`, or the signer's.
pub fn create(
    not_before: impl Into<Time>,
    not_after: impl Into<Time>,
    signer: &dyn Signer,
) -> Result<Vec<u8>, CreateError> {
    let (not_before, not_after) = (not_before.into(), not_after.into());
    let key = signer.public_key();
    let signature = signature_of(signer, Part::Anchor, &prepare(not_before, not_after, key)?)?;
    Ok(finish(not_before, not_after, key, &signature)?)
}

/// The key of the identity certificate with which these octets begin, in DER: that of a setup
/// message is the key under which its sender's messages are received. **The certificate isn't
/// checked.**
///
/// # Errors
///
/// `InvalidTaCertEncoding`, `OutOfMemory`.
pub fn key(certificate: &[u8]) -> Result<PublicKey, Refusal> {
    octets(certificate.len(), |out, outcome| {
        ffi::anchor_key(certificate, out, outcome)
    })
    .and_then(PublicKey::from_der)
}

/// What is to be signed of the key's own certificate, by the holder of the key.
///
/// # Errors
///
/// `Usage`, `TooLong`, `IncompatibleKey`, `OutOfMemory`.
pub fn prepare(
    not_before: impl Into<Time>,
    not_after: impl Into<Time>,
    key: &PublicKey,
) -> Result<Vec<u8>, Refusal> {
    let (from, to) = (not_before.into().seconds(), not_after.into().seconds());
    octets(key.as_der().len(), |out, outcome| {
        ffi::anchor_prepare(from, to, key.as_der(), out, outcome)
    })
    .map(|found| record(&found, tag::ANCHOR))
}

/// The key's own certificate, in DER, with this signature of what [`prepare`] gives for the same
/// arguments. It isn't checked, but for its length.
///
/// # Errors
///
/// Those of `prepare`.
pub fn finish(
    not_before: impl Into<Time>,
    not_after: impl Into<Time>,
    key: &PublicKey,
    signature: &[u8],
) -> Result<Vec<u8>, Refusal> {
    let (from, to) = (not_before.into().seconds(), not_after.into().seconds());
    octets(signature.len(), |out, outcome| {
        ffi::anchor_finish(from, to, key.as_der(), signature, out, outcome)
    })
}
