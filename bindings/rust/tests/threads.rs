//! Calls from several threads, and types that go from one to another.
#![forbid(unsafe_code)]

mod common;

use calmizsed::{
    message, receive, request, setup, Answers, Check, Checks, CreateError, Kind, Part, PublicKey,
    Question, Questions, Receipt, Refusal, SerialNumber, SignerError, Time,
};
use common::cases::cases;
use common::{octets_of_line, toy};
use std::error::Error;
use std::thread;

/// That it compiles says it, of each type with this name.
#[test]
fn all_types_can_be_sent_and_shared() {
    fn shared<T: Send + Sync>() -> &'static str {
        std::any::type_name::<T>()
    }
    let kinds = [shared::<Kind>(), shared::<setup::Kind>(), shared::<Part>()];
    let asked = [
        shared::<Question<'_>>(),
        shared::<Questions>(),
        shared::<Answers>(),
    ];
    let given = [shared::<Receipt>(), shared::<Check>(), shared::<Checks>()];
    let planned = [
        shared::<message::Plan<'_>>(),
        shared::<message::Parts>(),
        shared::<request::Locations<'_>>(),
    ];
    let held = [
        shared::<PublicKey>(),
        shared::<SerialNumber>(),
        shared::<Time>(),
    ];
    let refused = [
        shared::<Refusal>(),
        shared::<CreateError>(),
        shared::<SignerError>(),
    ];
    let all = [kinds, asked, given, planned, held, refused].concat();
    assert_eq!(all.len(), 18);
}

#[test]
fn errors_go_where_errors_go() {
    fn of(error: impl Error + Send + Sync + 'static) -> String {
        let boxed: Box<dyn Error + Send + Sync> = error.into();
        boxed.to_string()
    }
    assert_eq!(of(Refusal::OutOfMemory), "OutOfMemory: memory ran out");
    let refused = CreateError::from(Refusal::KeyReused);
    assert_eq!(of(refused), "KeyReused: the one-off key is the issuing key");
}

#[test]
fn threads_receive_what_one_receives() {
    let all = cases("test_external");
    let given: Vec<_> = all
        .iter()
        .filter(|case| case.how.as_deref() == Some("toy") && case.status == "0")
        .filter_map(|case| octets_of_line(&case.given))
        .collect();
    assert!(given.len() > 50);
    let keys = [toy::key(0), toy::key(1)];
    let time = Time::from_seconds(1_700_000_000);
    let received = || {
        let one = |message: &Vec<u8>| receive(Kind::Publication, message, &keys, time, toy::holds);
        given.iter().map(one).collect::<Vec<_>>()
    };
    let alone = received();
    assert!(alone.iter().any(Result::is_ok) && alone.iter().any(Result::is_err));
    thread::scope(|scope| {
        let threads: Vec<_> = (0..8).map(|_| scope.spawn(received)).collect();
        for thread in threads {
            assert_eq!(thread.join().expect("it ends"), alone);
        }
    });
}

/// Of a signed message with one bit changed, somewhere, no other text is received, and each refusal
/// is one that this crate knows.
#[test]
fn a_changed_message_gives_no_other_text() {
    let case = cases("test_external")
        .into_iter()
        .find(|case| case.name == "toy-example");
    let given = case.expect("the case").given;
    let mut message = octets_of_line(&given).expect("digits");
    let (keys, time) = ([toy::key(0)], Time::from_seconds(1_700_000_000));
    let received = |message: &[u8]| receive(Kind::Publication, message, &keys, time, toy::holds);
    let whole = received(&message).expect("a receipt");
    let mut refused = 0;
    for place in 0..message.len() {
        let bit = 1 << (place % 8);
        message[place] ^= bit;
        match received(&message) {
            Ok(receipt) => assert_eq!(receipt.text, whole.text, "octet {place}"),
            Err(refusal) => {
                assert!(!matches!(refusal, Refusal::Other { .. }), "{refusal}");
                refused += 1;
            }
        }
        assert!(matches!(
            (calmizsed::inspect(&message), calmizsed::content(&message)),
            (Ok(_), Ok(_) | Err(Refusal::Validation(_)))
                | (Err(Refusal::CmsDecode), Err(Refusal::CmsDecode))
        ));
        message[place] ^= bit;
    }
    assert_eq!(received(&message).as_ref(), Ok(&whole));
    assert!(
        10 * refused > 9 * message.len(),
        "{refused} of {}",
        message.len()
    );
}

#[test]
fn the_library_is_of_the_version_of_the_crate() {
    assert_eq!(
        calmizsed::version().as_deref(),
        Ok(env!("CARGO_PKG_VERSION"))
    );
}

#[test]
fn one_to_eight_keys_are_taken() {
    let case = cases("test_external")
        .into_iter()
        .find(|case| case.name == "toy-example");
    let given = case.expect("the case").given;
    let message = octets_of_line(&given).expect("digits");
    for count in 0..=9 {
        let keys: Vec<_> = (0..count).map(toy::key).collect();
        let asked = message::questions(&message, &keys);
        match count {
            1..=8 => {
                // One of the attributes, and under each key one of the certificate and one of the
                // CRL.
                let wanted = 1 + 2 * usize::try_from(count).expect("a count");
                assert_eq!(asked.map(|asked| asked.iter().len()), Ok(wanted));
            }
            _ => assert_eq!(asked, Err(Refusal::Usage)),
        }
    }
    let one_behind_another = [toy::key(0).as_der(), toy::key(1).as_der()].concat();
    assert_eq!(PublicKey::from_der(one_behind_another), Err(Refusal::Usage));
    assert_eq!(PublicKey::from_der(""), Err(Refusal::Usage));
    let key = toy::key(0);
    assert_eq!(key.as_ref(), key.as_der());
    assert_eq!(format!("{key:?}").len(), "PublicKey()".len() + 40);
}
