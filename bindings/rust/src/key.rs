//! Public keys.
#![forbid(unsafe_code)]

use crate::call::octets;
use crate::{ffi, Refusal};
use std::fmt;

/// A public key: a `SubjectPublicKeyInfo` in DER (RFC 5280, 4.1.2.7), as
/// `openssl pkey -pubout -outform DER` writes it.
#[derive(Clone, PartialEq, Eq, Hash)]
pub struct PublicKey {
    der: Vec<u8>,
    identifier: [u8; 20],
}

impl PublicKey {
    /// The key that these octets are.
    ///
    /// # Errors
    ///
    /// [`Usage`](Refusal::Usage) where they are none, or something stands behind it.
    pub fn from_der(der: impl Into<Vec<u8>>) -> Result<Self, Refusal> {
        let der = der.into();
        let found = octets(0, |out, outcome| ffi::key_identifier(&der, out, outcome))?;
        let identifier = found.try_into().map_err(|_| Refusal::Usage)?;
        Ok(Self { der, identifier })
    }

    /// The key in DER.
    #[must_use]
    pub fn as_der(&self) -> &[u8] {
        &self.der
    }

    /// The key's identifier: the SHA-1 of its bits (RFC 5280, 4.2.1.2).
    #[must_use]
    pub fn identifier(&self) -> [u8; 20] {
        self.identifier
    }
}

impl AsRef<[u8]> for PublicKey {
    fn as_ref(&self) -> &[u8] {
        &self.der
    }
}

impl fmt::Debug for PublicKey {
    fn fmt(&self, formatter: &mut fmt::Formatter<'_>) -> fmt::Result {
        formatter.write_str("PublicKey(")?;
        for octet in self.identifier {
            write!(formatter, "{octet:02x}")?;
        }
        formatter.write_str(")")
    }
}
