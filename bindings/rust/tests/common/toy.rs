//! The toy scheme, whose signatures are the SHA-256 of a key's bits and the octets behind one
//! another: the stored cases of the programs are signed so.

use super::octets_of_digits;
use calmizsed::{PublicKey, Question, Signer, SignerError};

/// The key with this number of the seed 1, as `tools/cases/signed_messages.py` spells it.
pub fn key(number: u64) -> PublicKey {
    let digits = format!(
        "3022300d06092a864886f70d0101010500031100{:016x}{number:016x}",
        1
    );
    PublicKey::from_der(octets_of_digits(digits.as_bytes()).expect("digits")).expect("a key")
}

/// Whether a signature holds by the toy scheme.
pub fn holds(question: Question<'_>) -> bool {
    signature(question.key, question.octets) == question.signature
}

/// The signature of the toy scheme.
pub fn signature(key: &[u8], octets: &[u8]) -> [u8; 32] {
    sha256(&[bits(key), octets].concat())
}

/// The bits of a key in DER: a sequence of an algorithm identifier and a bit string.
fn bits(key: &[u8]) -> &[u8] {
    let (inner, _) = value(key);
    let (_, behind) = value(inner);
    &value(behind).0[1..]
}

/// The contents of the value with which these octets begin, and what stands behind it.
fn value(octets: &[u8]) -> (&[u8], &[u8]) {
    let (length, begin) = match usize::from(octets[1]) {
        short @ 0..=127 => (short, 2),
        long => {
            let begin = 2 + (long & 0x7f);
            let length = octets[2..begin].iter();
            (
                length.fold(0, |sum, &octet| sum << 8 | usize::from(octet)),
                begin,
            )
        }
    };
    octets[begin..].split_at(length)
}

/// A signer that holds a key of the toy scheme.
pub struct ToySigner(pub PublicKey);

impl Signer for ToySigner {
    fn public_key(&self) -> &PublicKey {
        &self.0
    }

    fn sign(&self, octets: &[u8]) -> Result<Vec<u8>, SignerError> {
        Ok(signature(self.0.as_der(), octets).to_vec())
    }
}

/// The SHA-256 of octets (FIPS 180-4, 6.2).
pub fn sha256(octets: &[u8]) -> [u8; 32] {
    let mut padded = octets.to_vec();
    padded.push(0x80);
    while padded.len() % 64 != 56 {
        padded.push(0);
    }
    padded.extend((8 * octets.len() as u64).to_be_bytes());
    let constants = constants();
    let mut state: [u32; 8] = [
        0x6a09_e667,
        0xbb67_ae85,
        0x3c6e_f372,
        0xa54f_f53a,
        0x510e_527f,
        0x9b05_688c,
        0x1f83_d9ab,
        0x5be0_cd19,
    ];
    for block in padded.chunks_exact(64) {
        compress(&mut state, block, &constants);
    }
    let mut digest = [0; 32];
    for (room, word) in digest.chunks_exact_mut(4).zip(state) {
        room.copy_from_slice(&word.to_be_bytes());
    }
    digest
}

/// The first 32 bits of the fractional parts of the cube roots of the first 64 primes.
fn constants() -> [u32; 64] {
    let is_prime = |&number: &u128| (2..number).all(|divisor| number % divisor != 0);
    let mut primes = (2..).filter(is_prime);
    std::array::from_fn(|_| {
        let cube = primes.next().expect("there are more primes") << 96;
        let (mut low, mut high) = (0_u128, 1 << 40);
        while high - low > 1 {
            let middle = (low + high) / 2;
            if middle * middle * middle <= cube {
                low = middle;
            } else {
                high = middle;
            }
        }
        u32::try_from(low & 0xffff_ffff).expect("32 bits")
    })
}

#[allow(clippy::many_single_char_names)] // They are the standard's.
fn compress(state: &mut [u32; 8], block: &[u8], constants: &[u32; 64]) {
    let mut schedule = [0_u32; 64];
    for (word, octets) in schedule.iter_mut().zip(block.chunks_exact(4)) {
        *word = u32::from_be_bytes(octets.try_into().expect("four octets"));
    }
    for t in 16..64 {
        let (early, late) = (schedule[t - 15], schedule[t - 2]);
        let early = early.rotate_right(7) ^ early.rotate_right(18) ^ (early >> 3);
        let late = late.rotate_right(17) ^ late.rotate_right(19) ^ (late >> 10);
        let sum = schedule[t - 16].wrapping_add(schedule[t - 7]);
        schedule[t] = sum.wrapping_add(early).wrapping_add(late);
    }
    let [mut a, mut b, mut c, mut d, mut e, mut f, mut g, mut h] = *state;
    for (word, constant) in schedule.into_iter().zip(constants) {
        let sum = e.rotate_right(6) ^ e.rotate_right(11) ^ e.rotate_right(25);
        let choice = (e & f) ^ (!e & g);
        let first = [sum, choice, *constant, word]
            .into_iter()
            .fold(h, u32::wrapping_add);
        let sum = a.rotate_right(2) ^ a.rotate_right(13) ^ a.rotate_right(22);
        let second = sum.wrapping_add((a & b) ^ (a & c) ^ (b & c));
        (h, g, f, e) = (g, f, e, d.wrapping_add(first));
        (d, c, b, a) = (c, b, a, first.wrapping_add(second));
    }
    for (word, more) in state.iter_mut().zip([a, b, c, d, e, f, g, h]) {
        *word = word.wrapping_add(more);
    }
}

/// The examples of FIPS 180, and one of a length that leaves no room behind the padding.
#[test]
fn sha256_is_that_of_the_standard() {
    let cases: [(&[u8], &str); 4] = [
        (
            b"",
            "e3b0c44298fc1c149afbf4c8996fb92427ae41e4649b934ca495991b7852b855",
        ),
        (
            b"abc",
            "ba7816bf8f01cfea414140de5dae2223b00361a396177a9cb410ff61f20015ad",
        ),
        (
            b"abcdbcdecdefdefgefghfghighijhijkijkljklmklmnlmnomnopnopq",
            "248d6a61d20638b8e5c026930c3e6039a33ce45964ff2167f6ecedd419db06c1",
        ),
        (
            &b"a".repeat(1_000_000),
            "cdc76e5c9914fb9281a1c7e284d73e67f1809a48a497200e046d39ccc7112cd0",
        ),
    ];
    for (octets, digest) in cases {
        assert_eq!(super::digits(&sha256(octets)), digest);
    }
}
