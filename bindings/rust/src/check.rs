//! The fourteen checks of a signed message.
#![forbid(unsafe_code)]

use std::fmt;

/// One of the fourteen checks of a signed message (RFC 6492, 3.1; RFC 8181, 2).
///
/// `Display` says what has to hold.
///
/// ```
/// use calmizsed::Check;
///
/// let last = Check::all().last().unwrap();
/// assert_eq!((last.number(), last.to_string().as_str()), (14, "no CRL revokes the certificate"));
/// ```
#[derive(Clone, Copy, Debug, PartialEq, Eq, PartialOrd, Ord, Hash)]
pub struct Check(u8);

/// What has to hold, and what to look at if it doesn't.
const CHECKS: [(&str, &str); 14] = [
    (
        "the signer's key identifier is the certificate's subject key identifier",
        "the message: it brings another certificate than its signer's",
    ),
    (
        "the SHA-256 of the content is the signed digest",
        "the message: its content was changed after it was signed",
    ),
    (
        "the signature of the attributes holds under the certificate's key",
        "the message, or what says which signatures hold",
    ),
    (
        "the certificate's subject key identifier is the SHA-1 of its key",
        "the certificate",
    ),
    (
        "the time is in the certificate's validity",
        "your clock, or the sender's; an old message that came again",
    ),
    (
        "the certificate's authority key identifier, if there is one, is that of the key",
        "the key: the message is another party's, or its key was replaced",
    ),
    (
        "the certificate is no authority's",
        "the certificate: it is an authority's",
    ),
    (
        "the certificate's signature holds under the key",
        "the key: the message is another party's, or its key was replaced; the certificate",
    ),
    (
        "both algorithm identifiers of each CRL are the same",
        "the CRLs: how they were encoded",
    ),
    (
        "each CRL's signature holds under the key",
        "the key: the message is another party's, or its key was replaced; the CRLs",
    ),
    (
        "each CRL is of no later time than this",
        "your clock, or the sender's",
    ),
    (
        "each CRL is not out of date",
        "your clock; the CRLs: their issuer has to make new ones",
    ),
    (
        "each CRL's authority key identifier, if there is one, is that of the key",
        "the key; the CRLs: one is another issuer's",
    ),
    (
        "no CRL revokes the certificate",
        "the CRLs: the certificate is revoked",
    ),
];

impl Check {
    /// The check with this number, if there is one.
    pub(crate) fn numbered(number: i32) -> Option<Self> {
        u8::try_from(number)
            .ok()
            .filter(|number| (1..=14).contains(number))
            .map(Self)
    }

    /// All fourteen, in their order.
    pub fn all() -> impl Iterator<Item = Self> {
        (1..=14).map(Self)
    }

    /// Its number, from 1 to 14.
    #[must_use]
    pub fn number(self) -> u8 {
        self.0
    }

    /// What to look at if it fails.
    #[must_use]
    pub fn look_at(self) -> &'static str {
        self.texts().1
    }

    fn texts(self) -> (&'static str, &'static str) {
        CHECKS[usize::from(self.0) - 1]
    }
}

impl fmt::Display for Check {
    fn fmt(&self, formatter: &mut fmt::Formatter<'_>) -> fmt::Result {
        formatter.write_str(self.texts().0)
    }
}

/// Which of the fourteen checks of a signed message hold under one key at a time: what
/// [`explain`](crate::explain) gives.
#[derive(Clone, Copy, Debug, PartialEq, Eq, Hash)]
pub struct Checks([bool; 14]);

impl Checks {
    /// An octet for each check, 1 where it holds.
    pub(crate) fn of(octets: &[u8]) -> Self {
        Self(std::array::from_fn(|place| octets.get(place) == Some(&1)))
    }

    /// Whether this check holds, whether or not one before it does.
    #[must_use]
    pub fn holds(&self, check: Check) -> bool {
        self.0[usize::from(check.0) - 1]
    }

    /// Each check, and whether it holds, in their order.
    pub fn iter(&self) -> impl Iterator<Item = (Check, bool)> + '_ {
        Check::all().map(|check| (check, self.holds(check)))
    }

    /// The first check that fails, which decides: without one the message is accepted.
    #[must_use]
    pub fn first_failure(&self) -> Option<Check> {
        self.iter()
            .find(|&(_, holds)| !holds)
            .map(|(check, _)| check)
    }
}

#[cfg(test)]
mod tests {
    use super::{Check, Checks};

    #[test]
    fn there_are_fourteen() {
        assert_eq!(Check::all().map(Check::number).sum::<u8>(), 105);
        for number in [i32::MIN, -1, 0, 15, 256, 257, i32::MAX] {
            assert_eq!(Check::numbered(number), None);
        }
    }

    #[test]
    fn the_first_that_fails_is_found() {
        assert_eq!(Checks::of(&[1; 14]).first_failure(), None);
        let mut octets = [1; 14];
        (octets[4], octets[9]) = (0, 0);
        let checks = Checks::of(&octets);
        assert_eq!(checks.first_failure(), Check::numbered(5));
        let failed = checks.iter().filter(|(_, holds)| !holds);
        assert_eq!(
            failed.map(|(check, _)| check.number()).collect::<Vec<_>>(),
            [5, 10]
        );
        assert_eq!(Checks::of(&[1; 13]).first_failure(), Check::numbered(14));
    }

    /// The texts are those of `docs/PROGRAMS.md`, whose words for KEY, EE and MOMENT are others.
    #[test]
    fn what_to_look_at_is_what_the_programs_say() {
        let page = concat!(env!("CARGO_MANIFEST_DIR"), "/../../docs/PROGRAMS.md");
        let page = std::fs::read_to_string(page).expect("the page");
        let (_, table) = page
            .split_once("### The fourteen checks")
            .expect("the table");
        let rows: Vec<_> = table
            .lines()
            .filter(|line| line.starts_with("| "))
            .skip(1)
            .take(14)
            .collect();
        assert_eq!(rows.len(), 14);
        for (row, check) in rows.into_iter().zip(Check::all()) {
            let cells: Vec<_> = row.split('|').map(str::trim).collect();
            assert_eq!(cells[1], check.number().to_string());
            let key = "the key: the message is another party's, or its key was replaced";
            let said = match cells[5] {
                "the message, or the scheme" => {
                    "the message, or what says which signatures hold".to_owned()
                }
                cell => cell.replace("KEY, as for 6", key).replace("KEY", "the key"),
            };
            assert_eq!(said, check.look_at(), "of check {}", check.number());
        }
    }
}
