//! The calls of `include/calmizsed.h`, each as a function that is safe to call. This is the only
//! module with unsafe code.
//!
//! All calls have one shape, so one macro declares them, and one unsafe expression makes them. What
//! the header asks of a caller holds whatever is handed in:
//!
//! - Octets come as `&[u8]`: their pointer is valid for their length, which is below 2^63, and
//!   isn't null, also where the length is 0.
//! - `out` and `outcome` are lent by `&mut`, so they overlap nothing that is lent, and no one else
//!   reads or writes them meanwhile.
//! - What is only read is lent by `&`, so no one writes to it until the call returns.
//! - Numbers are handed over as they are: the library refuses those that it doesn't know.
//! - Only who has written unsafe code gets into a signal handler, or into the child of a fork of a
//!   process with threads, where no call may be made.
//!
//! The tests compare these declarations with the header.
#![allow(unsafe_code)]

/// How a call ended: `struct calmizsed_outcome`.
#[derive(Clone, Debug)]
#[repr(C)]
pub(crate) struct Outcome {
    pub(crate) status: i32,
    pub(crate) check: i32,
    pub(crate) written: usize,
    pub(crate) place: usize,
    pub(crate) has_signing_time: i32,
    pub(crate) signing_time: i64,
    pub(crate) last_time: i64,
    pub(crate) name: [u8; 64],
}

impl Outcome {
    /// One that no call has told yet.
    pub(crate) const fn new() -> Self {
        Self {
            status: -1,
            check: 0,
            written: 0,
            place: 0,
            has_signing_time: 0,
            signing_time: 0,
            last_time: 0,
            name: [0; 64],
        }
    }
}

/// `"symbol" name(argument: octets, argument: i32, ..);` is one call, with its arguments in the
/// order of the header. Behind them each has `out`, its length, and `outcome`.
macro_rules! calls {
    ($($symbol:literal $name:ident($($argument:ident: $kind:ident),*);)*) => {
        $(calls!(@one $symbol $name [$($argument: $kind,)*] [] [] []);)*

        #[cfg(test)]
        const CALLS: &[(&str, &[(&str, &str)])] =
            &[$(($symbol, &[$((stringify!($argument), stringify!($kind))),*])),*];
    };
    // Octets are a slice here, and a pointer and a length there.
    (@one $symbol:literal $name:ident [$argument:ident: octets, $($left:tt)*]
        [$($taken:tt)*] [$($declared:tt)*] [$($handed:tt)*]) => {
        calls!(@one $symbol $name [$($left)*]
            [$($taken)* $argument: &[u8],]
            [$($declared)* _: *const u8, _: usize,]
            [$($handed)* $argument.as_ptr(), $argument.len(),]);
    };
    // A number is itself.
    (@one $symbol:literal $name:ident [$argument:ident: $number:ident, $($left:tt)*]
        [$($taken:tt)*] [$($declared:tt)*] [$($handed:tt)*]) => {
        calls!(@one $symbol $name [$($left)*]
            [$($taken)* $argument: $number,]
            [$($declared)* _: $number,]
            [$($handed)* $argument,]);
    };
    (@one $symbol:literal $name:ident []
        [$($taken:tt)*] [$($declared:tt)*] [$($handed:tt)*]) => {
        #[allow(clippy::too_many_arguments)]
        pub(crate) fn $name($($taken)* out: &mut [u8], outcome: &mut Outcome) -> i32 {
            extern "C" {
                #[link_name = $symbol]
                fn call($($declared)* _: *mut u8, _: usize, _: *mut Outcome) -> i32;
            }
            // SAFETY: each pointer is that of a slice which is lent until the call returns, with
            // the slice's own length behind it; `out` and `outcome` are lent for writing, and so
            // overlap nothing. The call keeps none of them, and writes octets and numbers alone, of
            // which all are values of their types. The rest of what the header asks stands above.
            unsafe { call($($handed)* out.as_mut_ptr(), out.len(), outcome) }
        }
    };
}

calls! {
    "calmizsed_message_questions" message_questions(message: octets, keys: octets);
    "calmizsed_message_receive" message_receive(
        kind: i32, message: octets, keys: octets, when: i64, has_last: i32, last: i64,
        digest: octets, answers: octets);
    "calmizsed_message_explain" message_explain(
        message: octets, key: octets, when: i64, digest: octets, answers: octets);
    "calmizsed_message_inspect" message_inspect(message: octets);
    "calmizsed_message_content" message_content(message: octets);
    "calmizsed_message_prepare" message_prepare(
        kind: i32, text: octets, when: i64, serial: octets, issuing_key: octets,
        one_off_key: octets);
    "calmizsed_message_finish" message_finish(
        kind: i32, text: octets, when: i64, serial: octets, issuing_key: octets,
        one_off_key: octets, attributes: octets, crl: octets, certificate: octets);
    "calmizsed_setup_questions" setup_questions(kind: i32, text: octets);
    "calmizsed_setup_receive" setup_receive(
        kind: i32, text: octets, when: i64, digest: octets, answers: octets);
    "calmizsed_setup_read" setup_read(kind: i32, text: octets);
    "calmizsed_setup_anchor" setup_anchor(kind: i32, text: octets);
    "calmizsed_anchor_key" anchor_key(certificate: octets);
    "calmizsed_anchor_prepare" anchor_prepare(not_before: i64, not_after: i64, key: octets);
    "calmizsed_anchor_finish" anchor_finish(
        not_before: i64, not_after: i64, key: octets, signature: octets);
    "calmizsed_request_questions" request_questions(request: octets);
    "calmizsed_request_verify" request_verify(request: octets, digest: octets, answers: octets);
    "calmizsed_issue_questions" issue_questions(text: octets);
    "calmizsed_issue_verify" issue_verify(text: octets, digest: octets, answers: octets);
    "calmizsed_request_prepare" request_prepare(
        key: octets, repository: octets, manifest: octets, notify: octets);
    "calmizsed_request_finish" request_finish(
        key: octets, repository: octets, manifest: octets, notify: octets, signature: octets);
    "calmizsed_publication_decide" publication_decide(base: octets, query: octets, known: octets);
    "calmizsed_publication_refuse" publication_refuse(status: i32);
    "calmizsed_text_read" text_read(kind: i32, text: octets);
    "calmizsed_key_identifier" key_identifier(key: octets);
    "calmizsed_version" version();
}

#[cfg(test)]
#[path = "ffi_tests.rs"]
mod tests;
