//! Lengths of time, as `std::time::Duration` and in the units of `nd.h`.

use crate::error::Error;
use crate::raw::{ND_FOREVER, ND_LIFETIME_INFINITE};
use std::time::Duration;

/// Returns a length in seconds. It is a whole number, and below that of a lifetime without an end.
pub(crate) fn to_seconds(length: Duration) -> Result<u32, Error> {
    match u32::try_from(length.as_secs()) {
        Ok(seconds) if Duration::from_secs(seconds.into()) == length && seconds < ND_LIFETIME_INFINITE => Ok(seconds),
        _ => Err(Error::Invalid),
    }
}

/// Returns a length in milliseconds. It is a whole number.
pub(crate) fn to_milliseconds(length: Duration) -> Result<u32, Error> {
    match u32::try_from(length.as_millis()) {
        Ok(milliseconds) if Duration::from_millis(milliseconds.into()) == length => Ok(milliseconds),
        _ => Err(Error::Invalid),
    }
}

/// Returns the least number of milliseconds that is not below a length, or the greatest number there is.
pub(crate) fn to_milliseconds_up(length: Duration) -> u64 {
    u64::try_from(length.as_nanos().div_ceil(1_000_000)).unwrap_or(u64::MAX)
}

/// Returns an announced lifetime in seconds. `None` has no end.
pub(crate) fn to_lifetime(lifetime: Option<Duration>) -> Result<u32, Error> {
    lifetime.map_or(Ok(ND_LIFETIME_INFINITE), to_seconds)
}

/// Returns an announced lifetime of this many seconds.
pub(crate) fn lifetime(seconds: u32) -> Option<Duration> {
    (seconds != ND_LIFETIME_INFINITE).then(|| Duration::from_secs(seconds.into()))
}

/// Returns what is left of a lifetime, of this many milliseconds.
pub(crate) fn left(milliseconds: u64) -> Option<Duration> {
    (milliseconds != ND_FOREVER).then(|| Duration::from_millis(milliseconds))
}

/// Returns the number for what may be unspecified. 0 is the number of what is unspecified, and of nothing else.
pub(crate) fn to_specified<Number: Default + PartialEq>(value: Option<Number>) -> Result<Number, Error> {
    match value {
        Some(value) if value == Number::default() => Err(Error::Invalid),
        value => Ok(value.unwrap_or_default()),
    }
}

/// Returns what a number says that is 0 where it is unspecified.
pub(crate) fn specified<Number: Default + PartialEq>(number: Number) -> Option<Number> {
    (number != Number::default()).then_some(number)
}

/// Returns the length of this many milliseconds, or `None` for 0, which is unspecified.
pub(crate) fn specified_milliseconds(milliseconds: u32) -> Option<Duration> {
    specified(milliseconds).map(|milliseconds| Duration::from_millis(milliseconds.into()))
}

#[cfg(test)]
mod tests {
    use super::*;

    const MOST: u64 = u32::MAX as u64;

    #[test]
    fn seconds_are_whole_and_end() {
        assert_eq!((to_seconds(Duration::ZERO), to_seconds(Duration::from_secs(MOST - 1))), (Ok(0), Ok(u32::MAX - 1)));
        for wrong in [Duration::from_secs(MOST), Duration::from_secs(MOST + 1), Duration::from_nanos(1_000_000_001), Duration::MAX] {
            assert_eq!(to_seconds(wrong), Err(Error::Invalid));
        }
        assert_eq!((to_lifetime(None), to_lifetime(Some(Duration::from_secs(1)))), (Ok(u32::MAX), Ok(1)));
        assert_eq!((lifetime(u32::MAX), lifetime(0)), (None, Some(Duration::ZERO)));
    }

    #[test]
    fn milliseconds_are_whole_or_rounded_up() {
        assert_eq!((to_milliseconds(Duration::ZERO), to_milliseconds(Duration::from_millis(MOST))), (Ok(0), Ok(u32::MAX)));
        for wrong in [Duration::from_millis(MOST + 1), Duration::from_nanos(999_999), Duration::MAX] {
            assert_eq!(to_milliseconds(wrong), Err(Error::Invalid));
        }
        let rounded = [0, 1, 999_999, 1_000_000, 1_000_001].map(|number| to_milliseconds_up(Duration::from_nanos(number)));
        assert_eq!((rounded, to_milliseconds_up(Duration::MAX)), ([0, 1, 1, 1, 2], u64::MAX));
        assert_eq!((left(u64::MAX), left(5)), (None, Some(Duration::from_millis(5))));
    }

    #[test]
    fn zero_is_unspecified() {
        assert_eq!((to_specified(None::<u32>), to_specified(Some(7)), to_specified(Some(0))), (Ok(0), Ok(7), Err(Error::Invalid)));
        assert_eq!((specified(0), specified(7)), (None, Some(7)));
        assert_eq!((specified_milliseconds(0), specified_milliseconds(7)), (None, Some(Duration::from_millis(7))));
    }
}
