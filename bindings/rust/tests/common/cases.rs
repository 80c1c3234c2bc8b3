//! The stored cases of the programs: `tools/cases/stored_cases.py` says how they are spelled.

use super::{file, octets_of_digits};

/// A run of a program.
pub struct Case {
    pub name: String,
    /// Which scheme answers, where the words have no answers, or which of several programs it is.
    pub how: Option<String>,
    pub status: String,
    /// What the program writes.
    pub written: Vec<u8>,
    pub given: Vec<u8>,
    pub words: Vec<Vec<u8>>,
}

/// The runs that are stored in a crate's folder.
pub fn cases(of: &str) -> Vec<Case> {
    let lines = String::from_utf8(file(&format!("crates/{of}/data/cases.txt"))).expect("UTF-8");
    lines.lines().filter_map(case).collect()
}

/// The run that a line is; there are lines of other tests too.
fn case(line: &str) -> Option<Case> {
    let mut fields = line.split(' ').peekable();
    let name = fields.next()?.to_owned();
    let how = fields.next_if(|field| matches!(*field, "keys" | "toy" | "decide"));
    let status = fields.next()?;
    status.parse::<u8>().ok()?;
    Some(Case {
        name,
        how: how.map(str::to_owned),
        status: status.to_owned(),
        written: octets(fields.next()?),
        given: octets(fields.next()?),
        words: fields.map(word).collect(),
    })
}

/// The word that a field stands for.
fn word(field: &str) -> Vec<u8> {
    match field.strip_prefix('#') {
        Some(terms) => octets(terms),
        None if field == "-" => Vec::new(),
        None => field.as_bytes().to_vec(),
    }
}

/// The octets that terms spell.
fn octets(terms: &str) -> Vec<u8> {
    if terms == "-" {
        return Vec::new();
    }
    terms.split('|').flat_map(octets_of_term).collect()
}

fn octets_of_term(term: &str) -> Vec<u8> {
    if let Some(text) = term.strip_prefix('\'') {
        return text.as_bytes().to_vec();
    }
    let (part, times) = term.split_once('*').unwrap_or((term, "1"));
    let part = octets_of_digits(part.as_bytes()).expect("hexadecimal digits");
    part.repeat(times.parse().expect("a number"))
}

#[test]
fn terms_spell_octets() {
    assert_eq!(octets("-"), b"");
    assert_eq!(octets("'ab|0a*3|6364"), b"ab\n\n\ncd");
    assert_eq!(octets("'a*2"), b"a*2");
    assert_eq!(word("#2d2d68"), b"--h");
}
