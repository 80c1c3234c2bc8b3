//! How long it takes to receive a message where answers cost nothing: `cargo bench --offline`.
//!
//! Writes the microseconds of a call of `receive` in the quickest batch of calls. The message is that of the examples, or what the
//! words behind `--` name: `cargo bench --offline -- MESSAGE KEY SECONDS`, with files in DER. The
//! tree's `bench/library.py` calls it so, and says what the same calls take in C.
#![forbid(unsafe_code)]

use calmizsed::{receive, Kind, PublicKey, Time};
use std::error::Error;
use std::fs;
use std::time::Instant;

/// How long calls are made, and how long a batch of them takes, of which the quickest counts.
const SECONDS: f64 = 2.0;
const BATCH: f64 = 1e-3;

/// A message of the publication protocol, its issuer's key, and when it is received.
struct Given {
    message: Vec<u8>,
    key: Vec<u8>,
    when: Time,
}

impl Given {
    /// What the words name, else the example.
    fn of(words: &[String]) -> Result<Self, Box<dyn Error>> {
        match words {
            [message, key, when] => Ok(Self {
                message: fs::read(message)?,
                key: fs::read(key)?,
                when: Time::from_seconds(when.parse()?),
            }),
            [] => Self::example(),
            _ => Err("MESSAGE KEY SECONDS, or no words".into()),
        }
    }

    /// The query of the examples.
    fn example() -> Result<Self, Box<dyn Error>> {
        let examples = concat!(env!("CARGO_MANIFEST_DIR"), "/../../examples");
        let digits = fs::read_to_string(format!("{examples}/rsa-key.hex"))?;
        let places = (0..digits.trim_end().len()).step_by(2);
        Ok(Self {
            message: fs::read(format!("{examples}/rsa-query.der"))?,
            key: places
                .map(|place| u8::from_str_radix(&digits[place..place + 2], 16))
                .collect::<Result<_, _>>()?,
            when: Time::from_seconds(1_795_927_350),
        })
    }
}

fn main() -> Result<(), Box<dyn Error>> {
    // Cargo hands in a word of its own, `--bench`.
    let words: Vec<_> = std::env::args()
        .skip(1)
        .filter(|word| !word.starts_with("--"))
        .collect();
    let Given { message, key, when } = Given::of(&words)?;
    let keys = [PublicKey::from_der(key)?];
    let (mut least, mut octets, mut calls) = (f64::INFINITY, 0, 0_u32);
    let started = Instant::now();
    while calls == 0 || started.elapsed().as_secs_f64() < SECONDS {
        let (began, mut of_batch) = (Instant::now(), 0_u32);
        while of_batch == 0 || began.elapsed().as_secs_f64() < BATCH {
            octets += receive(Kind::Publication, &message, &keys, when, |_| true)?
                .text
                .len();
            of_batch += 1;
        }
        least = least.min(began.elapsed().as_secs_f64() / f64::from(of_batch));
        calls += of_batch;
    }
    // What was received is used, so that no call can be left out.
    assert_eq!(octets as u64 % u64::from(calls), 0);
    println!("{:.2} microseconds a call", least * 1e6);
    Ok(())
}
