//! Who signs.
#![forbid(unsafe_code)]

use crate::{Check, Part, PublicKey, Refusal};
use std::error::Error;
use std::fmt;
use std::fs::File;
use std::io::{self, Read};
use std::rc::Rc;
use std::sync::Arc;

/// Why a [`Signer`] didn't sign.
pub type SignerError = Box<dyn Error + Send + Sync>;

/// The holder of a private key, who signs with it: a library, a program, or a device.
///
/// The crate never sees a private key.
pub trait Signer {
    /// The public key.
    fn public_key(&self) -> &PublicKey;

    /// The signature of these octets of RSA with SHA-256, in PKCS #1 v1.5 (RFC 8017, 8.2). No
    /// digest was made of them.
    ///
    /// # Errors
    ///
    /// Whatever keeps it from signing.
    fn sign(&self, octets: &[u8]) -> Result<Vec<u8>, SignerError>;
}

macro_rules! signs_as_what_it_points_to {
    ($($pointer:ty),*) => {$(
        impl<S: Signer + ?Sized> Signer for $pointer {
            fn public_key(&self) -> &PublicKey {
                (**self).public_key()
            }

            fn sign(&self, octets: &[u8]) -> Result<Vec<u8>, SignerError> {
                (**self).sign(octets)
            }
        }
    )*};
}

signs_as_what_it_points_to!(&S, Box<S>, Rc<S>, Arc<S>);

/// A certificate's serial number: 20 octets, drawn at random.
#[derive(Clone, Copy, Debug, PartialEq, Eq, Hash)]
pub struct SerialNumber([u8; 20]);

impl SerialNumber {
    /// That of 20 octets which were drawn at random. The first bit is cleared: the number is
    /// positive.
    #[must_use]
    pub const fn from_random(mut octets: [u8; 20]) -> Self {
        octets[0] &= 0x7f;
        Self(octets)
    }

    /// One that the operating system draws, by `/dev/urandom`.
    ///
    /// # Errors
    ///
    /// Where that can't be read.
    pub fn draw() -> io::Result<Self> {
        let mut octets = [0; 20];
        File::open("/dev/urandom")?.read_exact(&mut octets)?;
        Ok(Self::from_random(octets))
    }

    /// The number, the most significant octet first.
    #[must_use]
    pub const fn as_octets(&self) -> &[u8; 20] {
        &self.0
    }
}

/// Why a message, a trust anchor or a certificate request wasn't made.
#[derive(Debug)]
pub enum CreateError {
    /// The library makes none.
    Refused(Refusal),
    /// The signer failed.
    Signer {
        /// What it was to sign.
        part: Part,
        /// What it says.
        cause: SignerError,
    },
}

impl CreateError {
    /// What the programs write: the refusal's name, or `Signer`.
    #[must_use]
    pub fn name(&self) -> String {
        match self {
            Self::Refused(refusal) => refusal.name(),
            Self::Signer { .. } => "Signer".to_owned(),
        }
    }

    /// The exit status of the programs.
    #[must_use]
    pub fn status(&self) -> i32 {
        match self {
            Self::Refused(refusal) => refusal.status(),
            Self::Signer { .. } => 7,
        }
    }

    /// As [`Refusal::check`]: nothing that is made is checked, so there is none.
    #[must_use]
    pub fn check(&self) -> Option<Check> {
        match self {
            Self::Refused(refusal) => refusal.check(),
            Self::Signer { .. } => None,
        }
    }
}

impl From<Refusal> for CreateError {
    fn from(refusal: Refusal) -> Self {
        Self::Refused(refusal)
    }
}

impl fmt::Display for CreateError {
    fn fmt(&self, formatter: &mut fmt::Formatter<'_>) -> fmt::Result {
        match self {
            Self::Refused(refusal) => refusal.fmt(formatter),
            Self::Signer { part, .. } => {
                write!(formatter, "Signer: it didn't sign the {}", part.name())
            }
        }
    }
}

impl Error for CreateError {
    fn source(&self) -> Option<&(dyn Error + 'static)> {
        match self {
            Self::Refused(_) => None,
            Self::Signer { cause, .. } => Some(&**cause),
        }
    }
}

/// The signature of this part.
pub(crate) fn signature_of(
    signer: &dyn Signer,
    part: Part,
    octets: &[u8],
) -> Result<Vec<u8>, CreateError> {
    signer
        .sign(octets)
        .map_err(|cause| CreateError::Signer { part, cause })
}
