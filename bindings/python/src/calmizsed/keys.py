"""Keys: whose signatures hold, and who signs.

Signatures are those of RSA with SHA-256 in PKCS #1 v1.5 alone (RFC 7935, 2), whatever the file of a key says. Public keys are
SubjectPublicKeyInfos in DER. A private key never leaves the object that holds it: only what is to be signed goes to it.
"""

from __future__ import annotations

import functools
import shlex
import subprocess
from dataclasses import dataclass, field
from typing import Optional, Protocol, Sequence, Union

from cryptography import exceptions
from cryptography.hazmat.primitives import hashes, serialization
from cryptography.hazmat.primitives.asymmetric import padding, rsa
from cryptography.x509 import Certificate

from calmizsed import _library
from calmizsed._asking import Verifier
from calmizsed._values import Octets, octets_of
from calmizsed.errors import KeyFileError, SigningError, UnsuitableKey

LEAST_BITS = 2048
ONE_OFF_BITS = 2048
PUBLIC_EXPONENT = 65537
RSA_ENCRYPTION = bytes.fromhex("06092a864886f70d010101")
# What `cryptography` raises for octets that are no key, or none that it knows. Some of its type stubs lack the last.
NO_KEY: tuple[type[Exception], ...] = (
    ValueError, IndexError, exceptions.UnsupportedAlgorithm, getattr(exceptions, "InternalError"))
SECONDS_TO_SIGN = 300.0

PublicKey = Union[Octets, rsa.RSAPublicKey, Certificate]
"""A public key: in DER, or as `cryptography` has it, or the certificate that it stands in."""


class SigningKey(Protocol):
    """Who signs."""

    @property
    def public_key(self) -> bytes:
        """The public key, in DER."""

    def sign(self, octets: bytes) -> bytes:
        """The signature of these octets, of which no digest was made, by RSA with SHA-256 in PKCS #1 v1.5."""


def public_octets(key: PublicKey) -> bytes:
    """A public key in DER."""
    if isinstance(key, Certificate):
        return _der_of(key.public_key())
    if isinstance(key, rsa.RSAPublicKey):
        return _der_of(key)
    return octets_of(key)


def _der_of(key: object) -> bytes:
    """That of a key of `cryptography`."""
    if not isinstance(key, rsa.RSAPublicKey):
        raise UnsuitableKey("IncompatibleKey", 7, "the key is no RSA key")
    return key.public_bytes(serialization.Encoding.DER, serialization.PublicFormat.SubjectPublicKeyInfo)


def _inner(octets: bytes) -> bytes:
    """What is behind the head of a value in DER."""
    return octets[2 + (octets[1] & 0x7f if octets[1] & 0x80 else 0):]


@functools.lru_cache(maxsize=64)
def rsa_key(key: bytes) -> Optional[rsa.RSAPublicKey]:
    """The RSA key that a SubjectPublicKeyInfo in DER is, or None. One for RSASSA-PSS alone isn't."""
    try:
        if not _inner(_inner(key)).startswith(RSA_ENCRYPTION):
            return None
        loaded = serialization.load_der_public_key(key)
    except NO_KEY:
        return None
    return loaded if isinstance(loaded, rsa.RSAPublicKey) else None


@dataclass(frozen=True)
class RsaVerifier:
    """Says whether signatures hold, by `cryptography`; under a key of fewer bits than these none does (RFC 7935, 3)."""

    least_bits: int = LEAST_BITS

    def __call__(self, key: bytes, octets: bytes, signature: bytes) -> bool:
        """Whether the signature of the octets holds under the key, in DER."""
        public = rsa_key(key)
        if public is None or public.key_size < self.least_bits:
            return False
        try:
            public.verify(signature, octets, padding.PKCS1v15(), hashes.SHA256())
        except exceptions.InvalidSignature:
            return False
        except NO_KEY:
            return False
        return True


RSA = RsaVerifier()
RSA_SHORT_KEYS = RsaVerifier(least_bits=0)


@dataclass(frozen=True)
class PrivateKey:
    """A private key of `cryptography`."""

    key: rsa.RSAPrivateKey = field(repr=False)

    @classmethod
    def generate(cls, bits: int = ONE_OFF_BITS) -> PrivateKey:
        """A new key."""
        return cls(rsa.generate_private_key(PUBLIC_EXPONENT, bits))

    @property
    def public_key(self) -> bytes:
        """The public key, in DER."""
        return _der_of(self.key.public_key())

    def sign(self, octets: bytes) -> bytes:
        """The signature of the octets."""
        return self.key.sign(octets, padding.PKCS1v15(), hashes.SHA256())


@dataclass(frozen=True)
class CommandKey:
    """A key that something else holds: the command gets octets on standard input, and writes their signature to standard output."""

    public_key: bytes
    command: Sequence[str]
    seconds: float = SECONDS_TO_SIGN

    @classmethod
    def of(cls, public_key: PublicKey, command: str) -> CommandKey:
        """That of a command as one writes it in a shell; no shell runs it."""
        try:
            words = shlex.split(command)
        except ValueError as error:
            raise SigningError("SignCommand", 2, f"{command}: {error}") from error
        if not words:
            raise SigningError("SignCommand", 2, "the command to sign has no words")
        return cls(public_octets(public_key), tuple(words))

    def sign(self, octets: bytes) -> bytes:
        """The signature of the octets."""
        try:
            ended = subprocess.run(
                self.command, input=octets, stdout=subprocess.PIPE, stderr=subprocess.PIPE, timeout=self.seconds, check=False)
        except subprocess.TimeoutExpired as error:
            raise SigningError("SignCommand", 1, f"{self.command[0]} took longer than {self.seconds:g} seconds") from error
        except OSError as error:
            raise SigningError("SignCommand", 1, f"{self.command[0]}: {error.strerror}") from error
        if ended.returncode:
            said = ended.stderr.decode("utf-8", "replace").strip()
            raise SigningError("SignCommand", 1, f"{self.command[0]} ended with status {ended.returncode}: {said}")
        return ended.stdout


def signature_of(key: SigningKey, octets: bytes, verifier: Verifier = RSA) -> bytes:
    """A signature of the octets, which holds under the public key of who signs."""
    signature = key.sign(octets)
    if verifier(key.public_key, octets, signature):
        return signature
    if verifier == RSA and RSA_SHORT_KEYS(key.public_key, octets, signature):
        raise UnsuitableKey("ShortKey", 7, f"the key that is to sign has fewer than {LEAST_BITS} bits (RFC 7935, 3)")
    raise SigningError("WrongSignature", 1, "the signature that was made is none of RSA with SHA-256 in PKCS #1 v1.5 under the public key")


def identifier(key: PublicKey) -> bytes:
    """The key's identifier: the SHA-1 of its bits."""
    return _library.library().call("key_identifier", public_octets(key)).octets


def load_private_key(octets: bytes, passphrase: Optional[bytes] = None) -> PrivateKey:
    """The private key of a file in PEM or DER; `octets` and `passphrase` are in no error that comes of it."""
    key: object
    try:
        if octets.lstrip().startswith(b"-----BEGIN"):
            key = serialization.load_pem_private_key(octets, passphrase)
        else:
            key = serialization.load_der_private_key(octets, passphrase)
    except TypeError:
        said = "the private key is encrypted, and there is no passphrase"
        if passphrase is not None:
            said = "there is a passphrase, and the private key isn't encrypted"
        raise KeyFileError("EncryptedKey", 2, said) from None
    except NO_KEY:
        said = "no private key in PEM or DER" + (", or another passphrase" if passphrase else "")
        raise KeyFileError("NoKey", 2, said) from None
    if not isinstance(key, rsa.RSAPrivateKey):
        raise UnsuitableKey("IncompatibleKey", 7, "the private key is no RSA key")
    return PrivateKey(key)
