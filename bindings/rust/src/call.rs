//! Calls with a buffer that is large enough, and records.
#![forbid(unsafe_code)]

use crate::ffi::Outcome;
use crate::Refusal;
use std::ops::Range;

/// Room for the result of most calls, besides what is as long as the input.
const ROOM: usize = 1 << 12;

const NO_ROOM: i32 = 16;

/// What a call gives: its result, and how it ended. It is made with room for an input of this
/// length and some more, and, if that is too little, once again with the room that it says it
/// needs.
pub(crate) fn call(
    input: usize,
    make: impl Fn(&mut [u8], &mut Outcome) -> i32,
) -> Result<(Vec<u8>, Outcome), Refusal> {
    let mut outcome = Outcome::new();
    let mut out = room(input.saturating_add(ROOM))?;
    if make(&mut out, &mut outcome) == NO_ROOM {
        out = room(outcome.written)?;
        make(&mut out, &mut outcome);
    }
    if outcome.status != 0 {
        return Err(Refusal::of(&outcome));
    }
    out.truncate(outcome.written);
    Ok((out, outcome))
}

/// As [`call`], for the result alone.
pub(crate) fn octets(
    input: usize,
    make: impl Fn(&mut [u8], &mut Outcome) -> i32,
) -> Result<Vec<u8>, Refusal> {
    call(input, make).map(|(octets, _)| octets)
}

/// As [`octets`], for a text.
pub(crate) fn text(
    input: usize,
    make: impl Fn(&mut [u8], &mut Outcome) -> i32,
) -> Result<String, Refusal> {
    octets(input, make).map(text_of)
}

/// The text that the library wrote. That it is UTF-8 is proved there.
pub(crate) fn text_of(octets: Vec<u8>) -> String {
    String::from_utf8(octets).expect("the library writes UTF-8")
}

/// A buffer of this length.
fn room(length: usize) -> Result<Vec<u8>, Refusal> {
    let mut out = Vec::new();
    out.try_reserve_exact(length)
        .map_err(|_| Refusal::OutOfMemory)?;
    out.resize(length, 0);
    Ok(out)
}

/// The tags of records.
pub(crate) mod tag {
    pub(crate) const ATTRIBUTES: u8 = 1;
    pub(crate) const CERTIFICATE: u8 = 2;
    pub(crate) const CRL: u8 = 3;
    pub(crate) const ANCHOR: u8 = 4;
    pub(crate) const REQUEST: u8 = 5;
    pub(crate) const OWN_KEY: u8 = 17;
    pub(crate) const KEY: u8 = 18;
    pub(crate) const DIGEST: u8 = 19;
    pub(crate) const REPLY_AND_CHANGES: u8 = 21;
    pub(crate) const OBJECT: u8 = 22;
    pub(crate) const NO_OBJECT: u8 = 23;
}

/// The octets of a tag and a length, which each record has before its own.
const HEAD: usize = 9;

/// The tag of each record, and where its octets stand. They end where no record begins.
pub(crate) fn records(octets: &[u8]) -> impl Iterator<Item = (u8, Range<usize>)> + '_ {
    let mut place = 0;
    std::iter::from_fn(move || {
        let head: [u8; HEAD] = octets.get(place..)?.get(..HEAD)?.try_into().ok()?;
        let [tag, length @ ..] = head;
        let begin = place + HEAD;
        let end = begin.checked_add(usize::try_from(u64::from_be_bytes(length)).ok()?)?;
        octets.get(begin..end)?;
        place = end;
        Some((tag, begin..end))
    })
}

/// The octets of the record with this tag, or none.
pub(crate) fn record(octets: &[u8], tag: u8) -> Vec<u8> {
    records(octets)
        .find(|&(found, _)| found == tag)
        .map_or_else(Vec::new, |(_, range)| octets[range].to_vec())
}

/// Adds the record with this tag, whose octets are these, one behind the other.
pub(crate) fn push_record(records: &mut Vec<u8>, tag: u8, parts: &[&[u8]]) {
    let length: usize = parts.iter().map(|part| part.len()).sum();
    records.push(tag);
    records.extend((length as u64).to_be_bytes());
    records.extend(parts.iter().copied().flatten());
}

#[cfg(test)]
mod tests {
    use super::{call, push_record, record, records};
    use crate::ffi::Outcome;
    use crate::Refusal;
    use std::cell::Cell;

    /// As a call of the library with this result.
    fn giving(result: &[u8]) -> impl Fn(&mut [u8], &mut Outcome) -> i32 + '_ {
        move |out, outcome| {
            outcome.written = result.len();
            outcome.status = match out.get_mut(..result.len()) {
                Some(room) => {
                    room.copy_from_slice(result);
                    0
                }
                None => 16,
            };
            outcome.status
        }
    }

    #[test]
    fn a_result_of_any_length_comes_with_at_most_two_calls() {
        for length in [0, 1, 4095, 4096, 4097, 1 << 20] {
            let (result, count) = (vec![7; length], Cell::new(0));
            let (given, _) = call(0, |out, outcome| {
                count.set(count.get() + 1);
                giving(&result)(out, outcome)
            })
            .expect("a result");
            assert_eq!(given, result);
            assert_eq!(count.get(), if length > 4096 { 2 } else { 1 });
        }
    }

    #[test]
    fn room_that_there_is_not_is_want_of_memory() {
        let refused = call(0, |_, outcome| {
            outcome.written = usize::MAX;
            16
        });
        assert_eq!(refused.err(), Some(Refusal::OutOfMemory));
    }

    #[test]
    fn records_end_where_none_begins() {
        let whole = [1, 0, 0, 0, 0, 0, 0, 0, 2, 8, 9, 19, 0, 0, 0, 0, 0, 0, 0, 0];
        let found: Vec<_> = records(&whole).collect();
        assert_eq!(found, [(1, 9..11), (19, 20..20)]);
        assert_eq!(record(&whole, 1), [8, 9]);
        assert_eq!(record(&whole, 2), []);
        for end in 0..20 {
            let count = records(&whole[..end]).count();
            assert_eq!(count, usize::from(end >= 11), "of {end} octets");
        }
        assert_eq!(records(&[255; 20]).count(), 0);
        assert_eq!(records(&[1, 0, 0, 0, 1, 0, 0, 0, 0]).count(), 0);
    }

    #[test]
    fn records_are_read_as_they_were_added() {
        let mut all = Vec::new();
        push_record(&mut all, 22, &[&[1; 300], b"u"]);
        push_record(&mut all, 23, &[]);
        let found: Vec<_> = records(&all).collect();
        assert_eq!(found, [(22, 9..310), (23, 319..319)]);
        assert_eq!(record(&all, 22), [[1; 300].as_slice(), b"u"].concat());
    }
}
