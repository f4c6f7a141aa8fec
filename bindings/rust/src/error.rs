//! Why a call did not do what it was asked for.

use crate::numbers::Limit;
use crate::raw;
use std::fmt;

/// Why a call did not do what it was asked for.
///
/// [`NoMemory`](Error::NoMemory), [`NoRoute`](Error::NoRoute) and [`Refused`](Error::Refused) let time pass. After any other error nothing has
/// changed.
///
/// ```
/// use nd::{Draws, Error, Node, Options, Refusal};
///
/// let mut host = Node::open(Options::host([2, 0, 0, 0, 0, 1], 0, Draws::Seed(1)))?;
/// assert_eq!(host.stop_advertising(2000), Err(Error::Refused(Refusal::WrongRole)));
/// assert_eq!(host.pass(1999), Err(Error::Past));
/// assert_eq!(host.pass(nd::MOMENT_LIMIT), Err(Error::Invalid));
/// # Ok::<(), Error>(())
/// ```
#[derive(Clone, Copy, Debug, PartialEq, Eq, Hash)]
#[non_exhaustive]
pub enum Error {
    /// Memory was refused. The event has added nothing. A part of what was due may have been done, and is reported. Take all reports, and make the
    /// same call again. For [`Node::pass`](crate::Node::pass) that ends, whatever memory there is. Another event may be refused memory however often
    /// it is called. Then give it up: a frame is as if the link had lost it.
    NoMemory,
    /// An argument that the call does not take: a field outside its range, a length of time that is no whole number of its unit, or a moment of
    /// [`MOMENT_LIMIT`](crate::MOMENT_LIMIT) or above.
    Invalid,
    /// The moment is before [`Node::last_moment`](crate::Node::last_moment).
    Past,
    /// The buffer is too short for the oldest report, which has this many bytes. The report stays the oldest.
    NoRoom(usize),
    /// The packet is not sent, since its destination has no next hop (RFC 4861, 5.2). [`Output::Lost`](crate::Output::Lost) is reported with
    /// [`Loss::NoRoute`](crate::Loss::NoRoute).
    NoRoute,
    /// The event was refused. Time has passed up to the event, what was due is done, and nothing else has changed.
    /// [`Output::Refused`](crate::Output::Refused) is reported, but not of [`Node::resolve`](crate::Node::resolve).
    Refused(Refusal),
    /// A status of a later version of the library.
    Other(i32),
}

/// Why an event was refused.
///
/// ```
/// use nd::{Draws, Error, Limit, Node, Options, OwnAddress, Refusal};
///
/// let mut options = Options::host([2, 0, 0, 0, 0, 1], 0, Draws::Seed(1));
/// options.limits.addresses = 1;
/// let mut node = Node::open(options)?;
/// node.pass(2000)?;
/// let own = OwnAddress::without_end("2001:db8::5".parse().unwrap());
/// assert_eq!(node.add_address(2000, &own), Err(Error::Refused(Refusal::Full(Limit::Addresses))));
/// # Ok::<(), Error>(())
/// ```
#[derive(Clone, Copy, Debug, PartialEq, Eq, Hash)]
#[non_exhaustive]
pub enum Refusal {
    /// An event of a router at a host.
    WrongRole,
    /// The link-local address is a duplicate (RFC 4862, 5.4.5).
    Disabled,
    /// The source is no assigned address of the node.
    NotOurs,
    /// The packet is longer than the MTU (RFC 8200, 5).
    TooLong,
    /// The table would pass its limit.
    Full(Limit),
    /// The link-local address is not assigned yet (RFC 4862, 5.4).
    Tentative,
    /// A number of a later version of the library.
    Other(u32),
}

impl Error {
    /// Returns the error of a status that is no success of its call.
    pub(crate) fn of_status(status: i32) -> Error {
        match status {
            raw::ND_NO_MEMORY => Error::NoMemory,
            raw::ND_INVALID => Error::Invalid,
            raw::ND_PAST => Error::Past,
            status => match unsafe { (raw::nd_refusal_of(status), raw::nd_limit_of(status)) } {
                (0, _) => Error::Other(status),
                (number, limit) => Error::Refused(Refusal::of_numbers(number, limit)),
            },
        }
    }
}

/// Returns what the status of an event says. 0 and above: it took place.
pub(crate) fn done(status: i32) -> Result<(), Error> {
    found(status).map(|_| ())
}

/// Returns true if a row was written, and false if there is none.
pub(crate) fn found(status: i32) -> Result<bool, Error> {
    if status < 0 {
        return Err(Error::of_status(status));
    }
    Ok(status == raw::ND_DONE)
}

impl Refusal {
    /// Returns the refusal with these numbers.
    pub(crate) fn of_numbers(number: u32, limit: u32) -> Refusal {
        match number {
            1 => Refusal::WrongRole,
            2 => Refusal::Disabled,
            3 => Refusal::NotOurs,
            4 => Refusal::TooLong,
            5 => Refusal::Full(Limit::from(limit)),
            8 => Refusal::Tentative,
            number => Refusal::Other(number),
        }
    }
}

/// Its number in `nd.h`.
impl From<Refusal> for u32 {
    fn from(refusal: Refusal) -> u32 {
        match refusal {
            Refusal::WrongRole => 1,
            Refusal::Disabled => 2,
            Refusal::NotOurs => 3,
            Refusal::TooLong => 4,
            Refusal::Full(_) => 5,
            Refusal::Tentative => 8,
            Refusal::Other(number) => number,
        }
    }
}

impl fmt::Display for Error {
    fn fmt(&self, f: &mut fmt::Formatter<'_>) -> fmt::Result {
        match self {
            Error::NoMemory => f.write_str("out of memory"),
            Error::Invalid => f.write_str("an argument that the call does not take"),
            Error::Past => f.write_str("the moment is before the last one"),
            Error::NoRoom(length) => write!(f, "the buffer is too short for {length} bytes"),
            Error::NoRoute => f.write_str("the destination has no next hop"),
            Error::Refused(refusal) => write!(f, "refused: {refusal}"),
            Error::Other(status) => write!(f, "status {status}"),
        }
    }
}

impl std::error::Error for Error {}

impl fmt::Display for Refusal {
    fn fmt(&self, f: &mut fmt::Formatter<'_>) -> fmt::Result {
        match self {
            Refusal::WrongRole => f.write_str("a host does not do what a router does"),
            Refusal::Disabled => f.write_str("the link-local address is a duplicate"),
            Refusal::NotOurs => f.write_str("the source is no assigned address"),
            Refusal::TooLong => f.write_str("the packet is longer than the MTU"),
            Refusal::Full(limit) => write!(f, "the limit of {limit} is reached"),
            Refusal::Tentative => f.write_str("the link-local address is not assigned yet"),
            Refusal::Other(number) => write!(f, "refusal {number}"),
        }
    }
}

#[cfg(test)]
mod tests {
    use super::*;

    #[test]
    fn a_refusal_has_one_number() {
        for number in 1..20 {
            assert_eq!(u32::from(Refusal::of_numbers(number, 1)), number);
        }
    }

    #[test]
    fn a_status_says_what_is_wrong() {
        assert_eq!(Error::of_status(-16 * 5 - 8), Error::Refused(Refusal::Full(Limit::StaticRoutes)));
        assert_eq!(Error::of_status(-16 * 3), Error::Refused(Refusal::NotOurs));
        assert_eq!(Error::of_status(-16 * 9), Error::Refused(Refusal::Other(9)));
        assert_eq!(Error::of_status(-16 * 5 - 9), Error::Refused(Refusal::Full(Limit::Other(9))));
        assert_eq!(Error::of_status(-6), Error::Other(-6));
        assert_eq!((found(0), found(1), done(2)), (Ok(true), Ok(false), Ok(())));
        assert_eq!((found(-1), found(-3), done(-4)), (Err(Error::NoMemory), Err(Error::Invalid), Err(Error::Past)));
    }
}
