//! Times, in seconds.
#![forbid(unsafe_code)]

use std::fmt;
use std::time::{Duration, SystemTime, UNIX_EPOCH};

/// A time in whole seconds since 1970, without leap seconds.
///
/// Calls take what can be a `Time`, so a [`SystemTime`] too. `Display` writes the seconds.
///
/// ```
/// use calmizsed::Time;
/// use std::time::{Duration, UNIX_EPOCH};
///
/// let late = UNIX_EPOCH + Duration::from_millis(1_999);
/// let early = UNIX_EPOCH - Duration::from_millis(1);
/// assert_eq!(Time::from(late), Time::from_seconds(1));
/// assert_eq!(Time::from(early), Time::from_seconds(-1));
/// assert_eq!(Time::from_seconds(1).to_system_time(), Some(UNIX_EPOCH + Duration::from_secs(1)));
/// ```
#[derive(Clone, Copy, Debug, PartialEq, Eq, PartialOrd, Ord, Hash)]
pub struct Time(i64);

impl Time {
    /// The clock's time.
    #[must_use]
    pub fn now() -> Self {
        SystemTime::now().into()
    }

    /// The time so many seconds after the beginning of 1970.
    #[must_use]
    pub const fn from_seconds(seconds: i64) -> Self {
        Self(seconds)
    }

    /// How many seconds it is after the beginning of 1970.
    #[must_use]
    pub const fn seconds(self) -> i64 {
        self.0
    }

    /// The beginning of this second, if the system can say it.
    #[must_use]
    pub fn to_system_time(self) -> Option<SystemTime> {
        let distance = Duration::from_secs(self.0.unsigned_abs());
        match self.0 {
            0.. => UNIX_EPOCH.checked_add(distance),
            _ => UNIX_EPOCH.checked_sub(distance),
        }
    }
}

/// The second in which it is.
impl From<SystemTime> for Time {
    fn from(time: SystemTime) -> Self {
        let whole = |seconds| i64::try_from(seconds).unwrap_or(i64::MAX);
        Self(match time.duration_since(UNIX_EPOCH) {
            Ok(since) => whole(since.as_secs()),
            Err(before) => {
                let before = before.duration();
                -whole(before.as_secs()) - i64::from(before.subsec_nanos() > 0)
            }
        })
    }
}

impl fmt::Display for Time {
    fn fmt(&self, formatter: &mut fmt::Formatter<'_>) -> fmt::Result {
        self.0.fmt(formatter)
    }
}

#[cfg(test)]
mod tests {
    use super::Time;
    use std::time::{Duration, UNIX_EPOCH};

    #[test]
    fn a_time_of_the_system_is_in_its_second() {
        for (milliseconds, seconds) in [(0, 0), (999, 0), (1000, 1), (1001, 1)] {
            let distance = Duration::from_millis(milliseconds);
            assert_eq!(Time::from(UNIX_EPOCH + distance).seconds(), seconds);
            let before = -i64::from(milliseconds > 0) - i64::from(milliseconds > 1000);
            assert_eq!(Time::from(UNIX_EPOCH - distance).seconds(), before);
        }
        for seconds in [-62_167_219_200, -1, 0, 1, 253_402_300_799] {
            let time = Time::from_seconds(seconds);
            assert_eq!(time.to_system_time().map(Time::from), Some(time));
        }
    }
}
