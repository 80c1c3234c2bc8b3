//! What the tests share.
#![allow(dead_code, unreachable_pub)] // Each test uses some of it.

pub mod cases;
pub mod openssl;
pub mod toy;

use std::path::PathBuf;

/// A path in the tree.
pub fn tree(name: &str) -> PathBuf {
    PathBuf::from(concat!(env!("CARGO_MANIFEST_DIR"), "/../..")).join(name)
}

/// The octets of a file in the tree.
pub fn file(name: &str) -> Vec<u8> {
    std::fs::read(tree(name)).unwrap_or_else(|why| panic!("{name}: {why}"))
}

/// The octets of hexadecimal digits, with a line feed behind them or none, if they are some.
pub fn octets_of_line(line: &[u8]) -> Option<Vec<u8>> {
    octets_of_digits(line.strip_suffix(b"\n").unwrap_or(line))
}

/// The octets of hexadecimal digits, if they are some.
pub fn octets_of_digits(digits: &[u8]) -> Option<Vec<u8>> {
    let value = |digit: u8| char::from(digit).to_digit(16);
    let pairs = digits.chunks(2);
    pairs
        .map(|pair| match *pair {
            [high, low] => u8::try_from(value(high)? * 16 + value(low)?).ok(),
            _ => None,
        })
        .collect()
}

/// The digits of octets, in lower case.
pub fn digits(octets: &[u8]) -> String {
    octets.iter().map(|octet| format!("{octet:02x}")).collect()
}
