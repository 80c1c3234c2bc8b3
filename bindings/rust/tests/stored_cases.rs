//! The stored cases of the programs `rpkica` and `rpkikeys`, by this crate: what is stored is what
//! the programs write, and has to come here too.
#![forbid(unsafe_code)]

mod common;

use calmizsed::message::{self, Parts, Plan};
use calmizsed::setup::{self, Kind as SetupKind};
use calmizsed::{
    anchor, content, create, explain, inspect, publication, receive, receive_after, request,
    Answers, Check, CreateError, Kind, Part, PublicKey, Questions, Receipt, Refusal, SerialNumber,
    Time,
};
use common::cases::{cases, Case};
use common::toy::{self, ToySigner};
use common::{digits, octets_of_digits, octets_of_line};
use std::collections::BTreeMap;

/// Why there is no line to compare.
enum Stop {
    /// The words of a case, or its input, are no arguments of a call: the program's own matter.
    NoCall,
    /// The library refuses.
    Refused(i32, String),
}

use Stop::NoCall;

impl From<Refusal> for Stop {
    fn from(refusal: Refusal) -> Self {
        Self::Refused(refusal.status(), refusal.name())
    }
}

impl From<CreateError> for Stop {
    fn from(error: CreateError) -> Self {
        Self::Refused(error.status(), error.name())
    }
}

type Written = Result<String, Stop>;

// ---- words

fn word(case: &Case, place: usize) -> Result<&str, Stop> {
    let word = case.words.get(place).ok_or(NoCall)?;
    std::str::from_utf8(word).map_err(|_| NoCall)
}

fn count(case: &Case, wanted: usize) -> Result<(), Stop> {
    (case.words.len() == wanted).then_some(()).ok_or(NoCall)
}

fn spelled(word: &str) -> Result<Vec<u8>, Stop> {
    octets_of_digits(word.as_bytes()).ok_or(NoCall)
}

fn given(case: &Case) -> Result<Vec<u8>, Stop> {
    octets_of_line(&case.given).ok_or(NoCall)
}

fn time(word: &str) -> Result<Time, Stop> {
    let is_number = word.len() < 19 && word.bytes().all(|octet| octet.is_ascii_digit());
    if !is_number || (word.len() > 1 && word.starts_with('0')) {
        return Err(NoCall);
    }
    word.parse().map(Time::from_seconds).map_err(|_| NoCall)
}

fn kind(word: &str) -> Result<Kind, Stop> {
    match word {
        "publication" => Ok(Kind::Publication),
        "provisioning" => Ok(Kind::Provisioning),
        _ => Err(NoCall),
    }
}

fn setup_kind(word: &str) -> Result<SetupKind, Stop> {
    match word {
        "child_request" => Ok(SetupKind::ChildRequest),
        "parent_response" => Ok(SetupKind::ParentResponse),
        "publisher_request" => Ok(SetupKind::PublisherRequest),
        "repository_response" => Ok(SetupKind::RepositoryResponse),
        _ => Err(NoCall),
    }
}

fn key(word: &str) -> Result<PublicKey, Stop> {
    Ok(PublicKey::from_der(spelled(word)?)?)
}

fn keys(case: &Case, from: usize) -> Result<Vec<PublicKey>, Stop> {
    (from..case.words.len())
        .map(|place| key(word(case, place)?))
        .collect()
}

fn answers(digest: &str, answers: &str) -> Result<Answers, Stop> {
    let answer = |digit| match digit {
        '0' => Ok(false),
        '1' => Ok(true),
        _ => Err(NoCall),
    };
    let answers: Vec<_> = answers.chars().map(answer).collect::<Result<_, _>>()?;
    Ok(Answers::new(&spelled(digest)?, &answers))
}

// ---- the program rpkica, which knows the toy scheme

fn toy_receive(case: &Case) -> Written {
    let (kind, when) = (kind(word(case, 1)?)?, time(word(case, 2)?)?);
    let (message, keys) = (given(case)?, keys(case, 3)?);
    Ok(receive(kind, &message, &keys, when, toy::holds)?.text + "\n")
}

fn toy_setup(case: &Case) -> Written {
    count(case, 3)?;
    let (kind, when) = (setup_kind(word(case, 1)?)?, time(word(case, 2)?)?);
    Ok(setup::receive(kind, &case.given, when, toy::holds)? + "\n")
}

/// The content, which may be no text: its octets as characters.
fn toy_content(case: &Case) -> Written {
    count(case, 1)?;
    let octets = content(&given(case)?)?;
    Ok(octets.into_iter().map(char::from).chain(['\n']).collect())
}

/// With the one-off key and the serial number that the program drew, where it made a message.
fn toy_create(case: &Case) -> Written {
    count(case, 3)?;
    let names: [&[u8]; 4] = [
        b"KeyNotFound\n",
        b"IncompatibleKey\n",
        b"KeyReused\n",
        b"Signer\n",
    ];
    if names.contains(&case.written.as_slice()) {
        return Err(NoCall);
    }
    let (issuer, mut one_off, mut serial) = (ToySigner(toy::key(0)), toy::key(1), [0; 20]);
    if case.written.starts_with(b"30") {
        let made = octets_of_line(&case.written).ok_or(NoCall)?;
        let questions = message::questions(&made, &[toy::key(0)])?;
        let own = questions
            .iter()
            .find(|question| question.part == Part::Attributes);
        one_off = PublicKey::from_der(own.ok_or(NoCall)?.key)?;
        let number = serial_number(&inspect(&made)?);
        serial[20 - number.len()..].copy_from_slice(&number);
    }
    let (kind, when) = (kind(word(case, 1)?)?, time(word(case, 2)?)?);
    let serial = SerialNumber::from_random(serial);
    let made = create(
        kind,
        &case.given,
        when,
        &issuer,
        &ToySigner(one_off),
        serial,
    )?;
    Ok(digits(&made) + "\n")
}

/// The serial number of the certificate, in what `inspect` gives.
fn serial_number(shown: &str) -> Vec<u8> {
    let (_, behind) = shown
        .split_once("\"serial_number\":\"")
        .expect("a serial number");
    let (number, _) = behind.split_once('"').expect("its end");
    octets_of_digits(number.as_bytes()).expect("digits")
}

// ---- the program rpkikeys, whose words have the answers

fn shown(receipt: &Receipt) -> String {
    let time = receipt
        .signing_time
        .map_or("-".to_owned(), |time| time.to_string());
    format!("{} {time}\n{}\n", receipt.place, receipt.text)
}

/// A record, as the header of the library for C has it.
fn record(tag: u8, octets: &[u8]) -> Vec<u8> {
    let length = (octets.len() as u64).to_be_bytes();
    [&[tag][..], &length, octets].concat()
}

/// The records of questions: one with a key of its own, those that are asked under each key, and
/// the keys.
fn octets_asked(
    own: &[calmizsed::Question<'_>],
    shared: &[calmizsed::Question<'_>],
    keys: &[PublicKey],
) -> Vec<u8> {
    let tag = |part| match part {
        Part::Attributes => 1,
        Part::Certificate => 2,
        Part::Crl => 3,
        Part::Anchor => 4,
        _ => 5,
    };
    let part = |question: &calmizsed::Question<'_>| {
        [
            record(tag(question.part), question.octets),
            record(16, question.signature),
        ]
        .concat()
    };
    let of_own = own
        .iter()
        .flat_map(|question| [record(17, question.key), part(question)]);
    let of_keys = keys.iter().map(|key| record(18, key.as_der()));
    let all = of_own.chain(shared.iter().map(part)).chain(of_keys);
    all.flatten().collect()
}

/// Questions as the program writes them: those under the keys that were handed in only once.
fn lines_of(questions: &Questions, keys: &[PublicKey]) -> String {
    let is_own = |part| matches!(part, Part::Attributes | Part::Anchor | Part::Request);
    let line = |question: calmizsed::Question<'_>| {
        let own = if is_own(question.part) {
            digits(question.key)
        } else {
            "-".to_owned()
        };
        let (octets, signature) = (digits(question.octets), digits(question.signature));
        format!("{} {own} {octets} {signature}\n", question.part.name())
    };
    let (own, shared): (Vec<_>, Vec<_>) =
        questions.iter().partition(|question| is_own(question.part));
    let each = if keys.is_empty() {
        0
    } else {
        shared.len() / keys.len()
    };
    let lines: Vec<String> = shared.iter().copied().map(line).collect();
    for (place, question) in shared.iter().enumerate() {
        assert_eq!(
            question.key,
            keys[place / each].as_der(),
            "the keys are asked in their order"
        );
        assert_eq!(
            lines[place],
            lines[place % each],
            "each key is asked the same"
        );
    }
    assert_eq!(
        questions.digest(),
        toy::sha256(&octets_asked(&own, &shared[..each], keys)),
        "the digest is that of the records before it"
    );
    let keys: String = keys
        .iter()
        .map(|key| format!("key {}\n", digits(key.as_der())))
        .collect();
    let own: String = own.into_iter().map(line).collect();
    format!(
        "{own}{}{keys}digest {}\n",
        lines[..each].concat(),
        digits(questions.digest())
    )
}

fn questions(case: &Case) -> Written {
    match (word(case, 1)?, case.words.len()) {
        ("message", 3..) => {
            let (message, keys) = (given(case)?, keys(case, 2)?);
            Ok(lines_of(&message::questions(&message, &keys)?, &keys))
        }
        ("setup", 3) => Ok(lines_of(
            &setup::questions(setup_kind(word(case, 2)?)?, &case.given)?,
            &[],
        )),
        ("request", 2) => Ok(lines_of(&request::questions(&given(case)?)?, &[])),
        ("issue", 2) => Ok(lines_of(&request::issue_questions(&case.given)?, &[])),
        _ => Err(NoCall),
    }
}

fn receive_answered(case: &Case) -> Written {
    let (kind, when) = (kind(word(case, 1)?)?, time(word(case, 2)?)?);
    let last = match word(case, 3)? {
        "-" => None,
        last => Some(time(last)?),
    };
    let answers = answers(word(case, 4)?, word(case, 5)?)?;
    let (message, keys) = (given(case)?, keys(case, 6)?);
    if keys.is_empty() {
        return Err(NoCall);
    }
    Ok(shown(&message::receive_answered(
        kind, &message, &keys, when, last, &answers,
    )?))
}

fn explain_answered(case: &Case) -> Written {
    count(case, 5)?;
    let (when, key, message) = (time(word(case, 1)?)?, key(word(case, 4)?)?, given(case)?);
    let answers = answers(word(case, 2)?, word(case, 3)?)?;
    let checks = message::explain_answered(&message, &key, when, &answers)?;
    let digits = checks
        .iter()
        .map(|(_, holds)| if holds { '1' } else { '0' });
    Ok(digits.chain(['\n']).collect())
}

fn inspected(case: &Case) -> Written {
    count(case, 1)?;
    Ok(inspect(&given(case)?)? + "\n")
}

fn setup_answered(case: &Case) -> Written {
    count(case, 5)?;
    let (kind, when) = (setup_kind(word(case, 1)?)?, time(word(case, 2)?)?);
    let answers = answers(word(case, 3)?, word(case, 4)?)?;
    Ok(setup::receive_answered(kind, &case.given, when, &answers)? + "\n")
}

fn verified(case: &Case) -> Written {
    count(case, 3)?;
    let answers = answers(word(case, 1)?, word(case, 2)?)?;
    let key = match word(case, 0)? {
        "issue" => request::verify_issue_answered(&case.given, &answers)?,
        _ => request::verify_answered(&given(case)?, &answers)?,
    };
    Ok(digits(key.as_der()) + "\n")
}

/// The signatures in the words behind this place, with these names.
fn signatures<const N: usize>(
    case: &Case,
    from: usize,
    names: [&str; N],
) -> Result<[Vec<u8>; N], Stop> {
    count(case, from + N)?;
    let mut found = names.map(|_| Vec::new());
    for (place, name) in names.into_iter().enumerate() {
        let (before, digits) = word(case, from + place)?.split_once('=').ok_or(NoCall)?;
        if before != name {
            return Err(NoCall);
        }
        found[place] = spelled(digits)?;
    }
    Ok(found)
}

fn message_made(case: &Case, is_prepared: bool) -> Written {
    let serial: [u8; 20] = spelled(word(case, 4)?)?.try_into().map_err(|_| NoCall)?;
    if serial[0] > 127 {
        return Err(NoCall);
    }
    let plan = Plan {
        kind: kind(word(case, 2)?)?,
        text: &case.given,
        when: time(word(case, 3)?)?,
        serial: SerialNumber::from_random(serial),
        issuing_key: &key(word(case, 5)?)?,
        one_off_key: &key(word(case, 6)?)?,
    };
    if is_prepared {
        count(case, 7)?;
        let Parts {
            attributes,
            crl,
            certificate,
        } = message::prepare(&plan)?;
        let [attributes, crl, certificate] =
            [attributes, crl, certificate].map(|part| digits(&part));
        return Ok(format!(
            "attributes {attributes}\ncrl {crl}\ncertificate {certificate}\n"
        ));
    }
    let [attributes, crl, certificate] = signatures(case, 7, ["attributes", "crl", "certificate"])?;
    let made = message::finish(
        &plan,
        &Parts {
            attributes,
            crl,
            certificate,
        },
    )?;
    Ok(digits(&made) + "\n")
}

fn anchor_made(case: &Case, is_prepared: bool) -> Written {
    let (from, to, key) = (
        time(word(case, 2)?)?,
        time(word(case, 3)?)?,
        key(word(case, 4)?)?,
    );
    if is_prepared {
        count(case, 5)?;
        return Ok(format!(
            "anchor {}\n",
            digits(&anchor::prepare(from, to, &key)?)
        ));
    }
    let [signature] = signatures(case, 5, ["anchor"])?;
    Ok(digits(&anchor::finish(from, to, &key, &signature)?) + "\n")
}

fn request_made(case: &Case, is_prepared: bool) -> Written {
    let key = key(word(case, 2)?)?;
    let notify = word(case, 5)?;
    let locations = request::Locations {
        repository: word(case, 3)?,
        manifest: word(case, 4)?,
        notify: (notify != "-").then_some(notify),
    };
    if is_prepared {
        count(case, 6)?;
        return Ok(format!(
            "request {}\n",
            digits(&request::prepare(&key, &locations)?)
        ));
    }
    let [signature] = signatures(case, 6, ["request"])?;
    Ok(digits(&request::finish(&key, &locations, &signature)?) + "\n")
}

fn made(case: &Case, is_prepared: bool) -> Written {
    match word(case, 1)? {
        "message" => message_made(case, is_prepared),
        "anchor" => anchor_made(case, is_prepared),
        "request" => request_made(case, is_prepared),
        _ => Err(NoCall),
    }
}

fn by_answers(case: &Case) -> Written {
    match word(case, 0)? {
        "questions" => questions(case),
        "receive" => receive_answered(case),
        "explain" => explain_answered(case),
        "inspect" => inspected(case),
        "setup" => setup_answered(case),
        "request" | "issue" => verified(case),
        "prepare" => made(case, true),
        "finish" => made(case, false),
        _ => Err(NoCall),
    }
}

fn by_toy(case: &Case) -> Written {
    match word(case, 0)? {
        "receive" => toy_receive(case),
        "setup" => toy_setup(case),
        "content" => toy_content(case),
        "create" => toy_create(case),
        _ => Err(NoCall),
    }
}

/// `receive` of rpkikeys, where the toy scheme answers.
fn by_toy_with_time(case: &Case) -> Written {
    let (kind, when) = (kind(word(case, 1)?)?, time(word(case, 2)?)?);
    let (message, keys) = (given(case)?, keys(case, 3)?);
    Ok(shown(&receive(kind, &message, &keys, when, toy::holds)?))
}

// ---- queries that are decided

/// What is known by a word: a URI, an equals sign, and the digest of the object there or a hyphen.
fn known(word: &str) -> Result<publication::Known<'_>, Stop> {
    let (uri, digest) = word.split_once('=').ok_or(NoCall)?;
    let sha256 = match digest {
        "-" => None,
        digest => Some(spelled(digest)?.try_into().map_err(|_| NoCall)?),
    };
    Ok(publication::Known { uri, sha256 })
}

/// Whether the changes are made, and the reply.
fn decided(case: &Case) -> Written {
    let known: Vec<_> = (1..case.words.len())
        .map(|place| known(word(case, place)?))
        .collect::<Result<_, _>>()?;
    match publication::decide(word(case, 0)?, &case.given, known) {
        Ok(decision) if decision.changes => Ok(format!("made\n{}", decision.reply)),
        Ok(decision) => Ok(format!("kept\n{}", decision.reply)),
        Err(refusal) => Err(refusal.into()),
    }
}

// ---- all of them

/// Makes each case of this kind, and gives how many there were of each verb.
fn check(
    of: &str,
    how: Option<&str>,
    answer: impl Fn(&Case) -> Written,
) -> BTreeMap<String, usize> {
    let (mut made, mut wrong) = (BTreeMap::new(), Vec::new());
    let is_asked =
        |case: &&Case| case.how.as_deref() == how && !["10", "11"].contains(&&*case.status);
    for case in cases(of).iter().filter(is_asked) {
        let (status, written) = match answer(case) {
            Ok(written) => ("0".to_owned(), written),
            Err(Stop::Refused(status, name)) => (status.to_string(), name + "\n"),
            Err(NoCall) => continue,
        };
        let is_octets = written.chars().map(u32::from).eq(case
            .written
            .iter()
            .copied()
            .map(u32::from));
        if status != case.status || !(is_octets || written.as_bytes() == case.written) {
            wrong.push(format!(
                "{}: {} was wanted, and {status} came: {written:.80}",
                case.name, case.status
            ));
        }
        *made
            .entry(word(case, 0).unwrap_or_default().to_owned())
            .or_default() += 1;
    }
    assert!(
        wrong.is_empty(),
        "{} differ:\n{}",
        wrong.len(),
        wrong.join("\n")
    );
    made
}

/// Each of the verbs has at least so many cases.
fn at_least(made: &BTreeMap<String, usize>, counts: &[(&str, usize)]) {
    println!("{made:?}");
    for &(verb, count) in counts {
        assert!(
            made.get(verb) >= Some(&count),
            "too few cases of {verb}: {made:?}"
        );
    }
}

#[test]
fn the_cases_of_rpkica() {
    let made = check("test_run", None, by_toy);
    at_least(
        &made,
        &[
            ("receive", 400),
            ("create", 200),
            ("setup", 100),
            ("content", 20),
        ],
    );
}

#[test]
fn the_cases_of_rpkikeys() {
    let made = check("test_external", Some("keys"), by_answers);
    let counts = [
        ("questions", 100),
        ("receive", 200),
        ("explain", 80),
        ("inspect", 5),
        ("setup", 40),
    ];
    at_least(&made, &counts);
    at_least(
        &made,
        &[
            ("request", 15),
            ("issue", 15),
            ("prepare", 80),
            ("finish", 80),
        ],
    );
}

#[test]
fn the_cases_of_rpkikeys_with_the_toy_scheme() {
    at_least(
        &check("test_external", Some("toy"), by_toy_with_time),
        &[("receive", 300)],
    );
}

/// Where nothing is known of a URI, 1 and nothing are stored.
#[test]
fn the_cases_of_decisions() {
    let mut made = BTreeMap::new();
    let is_decided = |case: &&Case| case.how.as_deref() == Some("decide");
    for case in cases("test_lines").iter().filter(is_decided) {
        let (status, written) = match decided(case) {
            Ok(written) => ("0".to_owned(), written),
            Err(Stop::Refused(17, name)) if name == "UnknownObject" => {
                ("1".to_owned(), String::new())
            }
            Err(Stop::Refused(status, name)) => (status.to_string(), name),
            Err(NoCall) => panic!("{} is no call", case.name),
        };
        assert_eq!(
            (&status, written.as_bytes()),
            (&case.status, case.written.as_slice()),
            "{}",
            case.name
        );
        *made
            .entry(written.get(..4).unwrap_or("none").to_owned())
            .or_default() += 1;
    }
    at_least(&made, &[("made", 5), ("kept", 5), ("none", 3)]);
}

/// What is received in a case that the toy scheme answers.
struct Given {
    kind: Kind,
    message: Vec<u8>,
    keys: Vec<PublicKey>,
    when: Time,
}

impl Given {
    fn of(case: &Case) -> Result<Self, Stop> {
        let (kind, when) = (kind(word(case, 1)?)?, time(word(case, 2)?)?);
        let (message, keys) = (given(case)?, keys(case, 3)?);
        Ok(Self {
            kind,
            message,
            keys,
            when,
        })
    }

    fn after(&self, last: i64) -> Result<Receipt, Refusal> {
        let last = Time::from_seconds(last);
        receive_after(
            self.kind,
            &self.message,
            &self.keys,
            self.when,
            last,
            toy::holds,
        )
    }

    fn first_failure(&self, key: &PublicKey) -> Option<Check> {
        let checks = explain(&self.message, key, self.when, toy::holds);
        checks.expect("checks").first_failure()
    }
}

/// What was received passes all checks under its key, and is received after each earlier time
/// alone.
fn agrees_where_received(given: &Given, receipt: &Receipt) {
    assert_eq!(given.first_failure(&given.keys[receipt.place]), None);
    match receipt.signing_time {
        None => assert_eq!(given.after(0), Err(Refusal::NoTime)),
        Some(signing_time) => {
            let last = signing_time;
            let replayed = Err(Refusal::Replayed { last, signing_time });
            assert_eq!(given.after(last.seconds()), replayed);
            assert_eq!(given.after(last.seconds() - 1).as_ref(), Ok(receipt));
        }
    }
}

/// `explain` under each key alone agrees with `receive`, and `receive_after` with the signing time.
#[test]
fn explain_and_last_times_agree_with_receive() {
    let (mut held, mut failed) = (0, 0);
    let toys = cases("test_external")
        .into_iter()
        .filter(|case| case.how.as_deref() == Some("toy"));
    for given in toys.filter_map(|case| Given::of(&case).ok()) {
        match receive(
            given.kind,
            &given.message,
            &given.keys,
            given.when,
            toy::holds,
        ) {
            Ok(receipt) => {
                held += 1;
                agrees_where_received(&given, &receipt);
            }
            Err(Refusal::Validation(check)) => {
                failed += 1;
                let greatest = given.keys.iter().map(|key| given.first_failure(key)).max();
                assert_eq!(greatest.flatten(), Some(check));
            }
            Err(_) => {}
        }
    }
    assert!(held > 50 && failed > 50, "{held} and {failed}");
}
