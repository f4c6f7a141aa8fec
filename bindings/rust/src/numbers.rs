//! The numbers of `nd.h` that have names.

use std::fmt;

/// Declares an enumeration whose values have the numbers of `nd.h`; a number that this version does not know is `Other`.
macro_rules! numbered {
    ($(#[$about:meta])* $name:ident { $($(#[$value_about:meta])* $value:ident = $number:literal,)* }) => {
        $(#[$about])*
        #[derive(Clone, Copy, Debug, PartialEq, Eq, Hash)]
        #[non_exhaustive]
        pub enum $name {
            $($(#[$value_about])* $value,)*
            /// A number of a later version of the library.
            Other(u32),
        }

        impl From<u32> for $name {
            fn from(number: u32) -> $name {
                match number {
                    $($number => $name::$value,)*
                    _ => $name::Other(number),
                }
            }
        }

        impl From<$name> for u32 {
            fn from(value: $name) -> u32 {
                match value {
                    $($name::$value => $number,)*
                    $name::Other(number) => number,
                }
            }
        }
    };
}

numbered! {
    /// Why a frame was dropped. The first reason that holds is reported, in the order of their numbers 1 to 5, 10, 11, 6 to 9, 12 to 20: no option is
    /// looked at before the checksum is good. RS, RA, NS and NA are the messages of RFC 4861, 4.1 to 4.4.
    ///
    /// ```
    /// use nd::{Draws, Node, Options, Output, Why};
    ///
    /// let mut node = Node::open(Options::host([2, 0, 0, 0, 0, 1], 0, Draws::Seed(1)))?;
    /// node.receive(2000, &[0; 13])?;
    /// assert_eq!(node.poll().last().unwrap().output, Output::Dropped(Why::FrameShort));
    /// # Ok::<(), nd::Error>(())
    /// ```
    Why {
        /// The frame has fewer than 14 bytes (RFC 2464, 3).
        FrameShort = 1,
        /// The Ethernet type is not 86dd (RFC 2464, 3).
        NotIpv6 = 2,
        /// Fewer than 40 bytes follow the Ethernet header (RFC 8200, 3).
        HeaderShort = 3,
        /// The version is not 6 (RFC 8200, 3).
        Version = 4,
        /// There are fewer bytes than the payload length (RFC 8200, 3).
        PayloadShort = 5,
        /// The ICMPv6 code is not 0 (RFC 4861, 6.1, 7.1 and 8.1).
        Code = 6,
        /// The message is shorter than its type (RFC 4861, 6.1, 7.1 and 8.1).
        Length = 7,
        /// An option has length 0 (RFC 4861, 4.6).
        OptionZero = 8,
        /// An option is not all there (RFC 4861, 4.6).
        OptionOver = 9,
        /// The hop limit is not 255 (RFC 4861, 6.1, 7.1 and 8.1).
        HopLimit = 10,
        /// The ICMPv6 checksum is bad (RFC 4443, 2.3).
        Sum = 11,
        /// An RA or a Redirect from an address that is not link-local (RFC 4861, 6.1.2 and 8.1), or any message from a multicast address.
        Source = 12,
        /// An NS or an NA for a multicast target (RFC 4861, 7.1).
        Target = 13,
        /// An RS or an NS from `::` with a source link-layer address (RFC 4861, 6.1.1 and 7.1.1).
        UnspecifiedSlla = 14,
        /// An NS from `::` to another address than a solicited-node one (RFC 4861, 7.1.1).
        NotSolicitedNode = 15,
        /// An NA with the Solicited flag to a multicast address (RFC 4861, 7.1.2).
        SolicitedMulticast = 16,
        /// The target of a Redirect is neither link-local nor the destination (RFC 4861, 8.1).
        RedirectTarget = 17,
        /// The destination of a Redirect is multicast (RFC 4861, 8.1).
        RedirectDestination = 18,
        /// A message that the other role takes: an RS at a host, an RA or a Redirect at a router. At a node also a destination or a target that is
        /// not the node's, and, until its link-local address is assigned, all but duplicate detection.
        NotForUs = 19,
        /// A Redirect from another node than the first hop of its destination (RFC 4861, 8.1). At a node only: [`hear`](crate::hear) does not return
        /// it.
        NotFirstHop = 20,
    }
}

numbered! {
    /// Why a packet is not sent.
    ///
    /// ```
    /// use nd::{Draws, Error, Loss, Node, Options, Output};
    ///
    /// let mut node = Node::open(Options::host([2, 0, 0, 0, 0, 1], 0, Draws::Seed(1)))?;
    /// node.pass(2000)?;
    /// let own = node.addresses(2000)?.next().unwrap().address;
    /// assert_eq!(node.send(2000, own, "2001:db8::1".parse().unwrap(), 17, &[]), Err(Error::NoRoute));
    /// assert!(matches!(node.poll().last().unwrap().output, Output::Lost(Loss::NoRoute, _)));
    /// # Ok::<(), Error>(())
    /// ```
    Loss {
        /// Its neighbour was not resolved (RFC 4861, 7.2.2).
        Unreachable = 1,
        /// A later packet waits for its neighbour (RFC 4861, 7.2.2).
        Replaced = 2,
        /// [`Node::forget`](crate::Node::forget) or [`Node::clear`](crate::Node::clear) removed its neighbour.
        Forgotten = 3,
        /// It has no next hop (RFC 4861, 5.2).
        NoRoute = 4,
        /// It was to be forwarded with a hop limit below 2 (RFC 8200, 3).
        HopLimit = 5,
    }
}

numbered! {
    /// A table that would pass its limit. [`Limits`](crate::Limits) sets the limits.
    ///
    /// ```
    /// assert_eq!(nd::Limit::StaticRoutes.to_string(), "static routes");
    /// ```
    Limit {
        /// The neighbours (RFC 4861, 5.1).
        Neighbours = 1,
        /// The default routers (RFC 4861, 5.1).
        Routers = 2,
        /// The prefixes on the link (RFC 4861, 5.1).
        Prefixes = 3,
        /// The node's own addresses (RFC 4862, 5.5.3).
        Addresses = 4,
        /// The DNS servers (RFC 8106, 5.3.1).
        Servers = 5,
        /// The DNS search names (RFC 8106, 5.3.1).
        Names = 6,
        /// The prefixes that a router advertises (RFC 4861, 6.2.1).
        Offers = 7,
        /// The static routes of a router.
        StaticRoutes = 8,
    }
}

impl fmt::Display for Limit {
    fn fmt(&self, f: &mut fmt::Formatter<'_>) -> fmt::Result {
        match self {
            Limit::Neighbours => f.write_str("neighbours"),
            Limit::Routers => f.write_str("default routers"),
            Limit::Prefixes => f.write_str("prefixes on the link"),
            Limit::Addresses => f.write_str("own addresses"),
            Limit::Servers => f.write_str("DNS servers"),
            Limit::Names => f.write_str("DNS search names"),
            Limit::Offers => f.write_str("advertised prefixes"),
            Limit::StaticRoutes => f.write_str("static routes"),
            Limit::Other(number) => write!(f, "table {number}"),
        }
    }
}

numbered! {
    /// The state of a neighbour (RFC 4861, 7.3.2).
    ///
    /// ```
    /// # let mut node = nd::Node::open(nd::Options::host([2, 0, 0, 0, 0, 1], 0, nd::Draws::Seed(1)))?;
    /// # node.pass(2000)?;
    /// # let neighbour = "fe80::2".parse().unwrap();
    /// node.resolve(2000, neighbour)?;
    /// assert_eq!(node.neighbour(2000, neighbour)?.unwrap().state, nd::Reachability::Incomplete);
    /// # Ok::<(), nd::Error>(())
    /// ```
    Reachability {
        /// Its link-layer address is not known yet, and is asked for.
        Incomplete = 1,
        /// It was confirmed within the last ReachableTime.
        Reachable = 2,
        /// More than ReachableTime has passed since it was confirmed. Nothing is done until a packet is sent to it.
        Stale = 3,
        /// A packet was sent to it while it was STALE. It is probed unless it is confirmed first.
        Delay = 4,
        /// Solicitations are sent to it each RetransTimer, until it is confirmed or fails.
        Probe = 5,
    }
}

numbered! {
    /// The state of an address of the node (RFC 4862, 2).
    ///
    /// ```
    /// # let mut node = nd::Node::open(nd::Options::host([2, 0, 0, 0, 0, 1], 0, nd::Draws::Seed(1)))?;
    /// assert_eq!(node.addresses(0)?.next().unwrap().state, nd::State::Tentative);
    /// node.pass(2000)?;
    /// assert_eq!(node.addresses(2000)?.next().unwrap().state, nd::State::Preferred);
    /// # Ok::<(), nd::Error>(())
    /// ```
    State {
        /// Duplicate detection is not done yet, and the address is not used (RFC 4862, 5.4).
        Tentative = 1,
        /// The address may be used.
        Preferred = 2,
        /// Its preferred lifetime has ended: no new communication should begin with it (RFC 4862, 5.5.4).
        Deprecated = 3,
        /// The address is another node's too, and is not used (RFC 4862, 5.4.5).
        Duplicate = 4,
    }
}

numbered! {
    /// The ICMPv6 type of a message of Neighbor Discovery (RFC 4861, 4). `u32::from` returns its number.
    ///
    /// ```
    /// assert_eq!(u32::from(nd::MessageType::RouterAdvertisement), 134);
    /// ```
    MessageType {
        /// RFC 4861, 4.1.
        RouterSolicitation = 133,
        /// RFC 4861, 4.2.
        RouterAdvertisement = 134,
        /// RFC 4861, 4.3.
        NeighborSolicitation = 135,
        /// RFC 4861, 4.4.
        NeighborAdvertisement = 136,
        /// RFC 4861, 4.5.
        Redirect = 137,
    }
}

/// The preference of a default router (RFC 4191, 2.1).
///
/// ```
/// assert_eq!(nd::Preference::default(), nd::Preference::Medium);
/// ```
#[derive(Clone, Copy, Debug, Default, PartialEq, Eq, Hash)]
#[non_exhaustive]
pub enum Preference {
    /// The default.
    #[default]
    Medium = 0,
    /// Before other routers.
    High = 1,
    /// After other routers.
    Low = 2,
}

impl Preference {
    /// Returns the preference with this number. What is reserved is medium (RFC 4191, 2.2).
    pub(crate) fn of_number(number: u32) -> Preference {
        [Preference::High, Preference::Low].into_iter().find(|&preference| u32::from(preference) == number).unwrap_or_default()
    }
}

/// Its number in `nd.h`.
impl From<Preference> for u32 {
    fn from(preference: Preference) -> u32 {
        preference as u32
    }
}

/// A table that [`Node::clear`](crate::Node::clear) empties.
///
/// ```
/// # let mut node = nd::Node::open(nd::Options::host([2, 0, 0, 0, 0, 1], 0, nd::Draws::Seed(1)))?;
/// node.clear(2000, nd::Clearable::Dns)?;
/// assert_eq!(node.servers(2000)?.count() + node.names(2000)?.count(), 0);
/// # Ok::<(), nd::Error>(())
/// ```
#[derive(Clone, Copy, Debug, PartialEq, Eq, Hash)]
#[non_exhaustive]
pub enum Clearable {
    /// As [`Node::forget`](crate::Node::forget) for each, in the order of addresses.
    Neighbours = 1,
    /// [`Output::EndedRouter`](crate::Output::EndedRouter) is reported for each, in list order. Redirects end.
    Routers = 2,
    /// Own addresses that were formed from them stay.
    Prefixes = 3,
    /// The Redirects in force (RFC 4861, 8.3).
    Redirects = 4,
    /// DNS servers and search names.
    Dns = 5,
}

#[cfg(test)]
mod tests {
    use super::*;

    #[test]
    fn a_preference_that_is_reserved_is_medium() {
        let found = [0, 1, 2, 3].map(Preference::of_number);
        assert_eq!(found, [Preference::Medium, Preference::High, Preference::Low, Preference::Medium]);
    }
}
