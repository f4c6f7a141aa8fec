//! What a frame is, without a node.

use crate::numbers::{MessageType, Preference, Why};
use crate::options::Role;
use crate::raw;
use crate::time::{specified, specified_milliseconds};
use std::net::Ipv6Addr;
use std::time::Duration;

/// What a frame is to a host or to a router that knows nothing else.
///
/// ```
/// assert_eq!(nd::hear(&[0; 13], nd::Role::Host), nd::Hearing::Drop(nd::Why::FrameShort));
/// ```
#[derive(Clone, Copy, Debug, PartialEq, Eq, Hash)]
#[non_exhaustive]
pub enum Hearing<'a> {
    /// A valid message of Neighbor Discovery.
    Valid(Heard<'a>),
    /// Another IPv6 packet.
    Other(Packet),
    /// The frame is dropped.
    Drop(Why),
}

/// A valid message of Neighbor Discovery.
///
/// ```no_run
/// # fn example(frame: &[u8]) {
/// use nd::{hear, Hearing, Message, Role};
///
/// if let Hearing::Valid(heard) = hear(frame, Role::Host) {
///     if let Message::RouterAdvertisement(advertised) = heard.message {
///         println!("{}: a router for {:?}", heard.source, advertised.router_lifetime);
///     }
/// }
/// # }
/// ```
#[derive(Clone, Copy, Debug, PartialEq, Eq, Hash)]
#[non_exhaustive]
pub struct Heard<'a> {
    /// The source of the packet.
    pub source: Ipv6Addr,
    /// The destination of the packet.
    pub destination: Ipv6Addr,
    /// What the message says besides its options.
    pub message: Message,
    /// The options, as they are in the frame (RFC 4861, 4.6). None has length 0, and all are whole.
    pub options: &'a [u8],
}

/// Another IPv6 packet than a message of Neighbor Discovery.
///
/// ```no_run
/// # fn example(frame: &[u8]) {
/// if let nd::Hearing::Other(packet) = nd::hear(frame, nd::Role::Host) {
///     println!("{} to {}: {}", packet.source, packet.destination, packet.next_header);
/// }
/// # }
/// ```
#[derive(Clone, Copy, Debug, PartialEq, Eq, Hash)]
#[non_exhaustive]
pub struct Packet {
    /// The source of the packet.
    pub source: Ipv6Addr,
    /// The destination of the packet.
    pub destination: Ipv6Addr,
    /// What follows the IPv6 header (RFC 8200, 3).
    pub next_header: u8,
}

/// What a message of Neighbor Discovery says besides its options (RFC 4861, 4).
///
/// ```no_run
/// # fn example(message: nd::Message) {
/// if let nd::Message::NeighborSolicitation { target } = message {
///     println!("who has {target}?");
/// }
/// # }
/// ```
#[derive(Clone, Copy, Debug, PartialEq, Eq, Hash)]
#[non_exhaustive]
pub enum Message {
    /// RFC 4861, 4.1.
    RouterSolicitation,
    /// RFC 4861, 4.2.
    RouterAdvertisement(RouterAdvertisement),
    /// RFC 4861, 4.3.
    NeighborSolicitation {
        /// The address whose link-layer address is asked for.
        target: Ipv6Addr,
    },
    /// RFC 4861, 4.4.
    NeighborAdvertisement {
        /// The address whose link-layer address is given.
        target: Ipv6Addr,
        /// The Router flag.
        router: bool,
        /// The Solicited flag.
        solicited: bool,
        /// The Override flag.
        override_flag: bool,
    },
    /// RFC 4861, 4.5.
    Redirect {
        /// The better first hop.
        target: Ipv6Addr,
        /// The destination that is redirected.
        destination: Ipv6Addr,
    },
    /// A type of a later version of the library.
    Other(u32),
}

impl Message {
    /// Returns the ICMPv6 type of the message.
    ///
    /// ```
    /// let message = nd::Message::NeighborSolicitation { target: "fe80::1".parse().unwrap() };
    /// assert_eq!(message.message_type(), nd::MessageType::NeighborSolicitation);
    /// ```
    pub fn message_type(&self) -> MessageType {
        match self {
            Message::RouterSolicitation => MessageType::RouterSolicitation,
            Message::RouterAdvertisement(_) => MessageType::RouterAdvertisement,
            Message::NeighborSolicitation { .. } => MessageType::NeighborSolicitation,
            Message::NeighborAdvertisement { .. } => MessageType::NeighborAdvertisement,
            Message::Redirect { .. } => MessageType::Redirect,
            Message::Other(number) => MessageType::Other(*number),
        }
    }
}

/// What a Router Advertisement says besides its options (RFC 4861, 4.2).
///
/// ```no_run
/// # fn example(advertised: nd::RouterAdvertisement) {
/// let is_default_router = !advertised.router_lifetime.is_zero();
/// # }
/// ```
#[derive(Clone, Copy, Debug, PartialEq, Eq, Hash)]
#[non_exhaustive]
pub struct RouterAdvertisement {
    /// Cur Hop Limit. `None`: unspecified.
    pub hop_limit: Option<u8>,
    /// The Managed flag: addresses are available by DHCPv6.
    pub managed: bool,
    /// The Other flag: other configuration is available by DHCPv6.
    pub other: bool,
    /// The preference of the router (RFC 4191, 2.2).
    pub preference: Preference,
    /// Router Lifetime, whole seconds. Zero: it is not a default router.
    pub router_lifetime: Duration,
    /// Reachable Time, whole milliseconds. `None`: unspecified.
    pub reachable_time: Option<Duration>,
    /// Retrans Timer, whole milliseconds. `None`: unspecified.
    pub retrans_timer: Option<Duration>,
}

/// Returns what a frame is to a host or to a router that knows nothing else: its message, or the first reason to drop it (RFC 4861, 6.1, 7.1 and
/// 8.1). The frame begins with the Ethernet destination. It takes no memory, and any thread may call it at any time.
///
/// ```
/// use nd::{hear, Hearing, Role, Why};
///
/// assert_eq!(hear(&[0; 64], Role::Host), Hearing::Drop(Why::NotIpv6));
/// ```
pub fn hear(frame: &[u8], role: Role) -> Hearing<'_> {
    let mut heard = raw::nd_heard::default();
    unsafe { raw::nd_hear(frame.as_ptr(), frame.len(), role as u32, &mut heard) };
    let (source, destination) = (heard.source.into(), heard.destination.into());
    match heard.hearing {
        raw::ND_HEARING_VALID => Hearing::Valid(Heard { source, destination, message: message_of(&heard), options: options_in(frame, &heard) }),
        raw::ND_HEARING_OTHER => Hearing::Other(Packet { source, destination, next_header: heard.next_header as u8 }),
        _ => Hearing::Drop(heard.why.into()),
    }
}

/// Returns the options of a message in its frame.
fn options_in<'a>(frame: &'a [u8], heard: &raw::nd_heard) -> &'a [u8] {
    let options = frame.get(heard.options as usize..).unwrap_or_default();
    options.get(..heard.options_bytes as usize).unwrap_or_default()
}

/// Returns what a message says.
fn message_of(heard: &raw::nd_heard) -> Message {
    let target = heard.target.into();
    match MessageType::from(heard.message_type) {
        MessageType::RouterSolicitation => Message::RouterSolicitation,
        MessageType::RouterAdvertisement => Message::RouterAdvertisement(RouterAdvertisement {
            hop_limit: specified(heard.hop_limit),
            managed: heard.managed == 1,
            other: heard.other == 1,
            preference: Preference::of_number(heard.preference.into()),
            router_lifetime: Duration::from_secs(heard.router_lifetime.into()),
            reachable_time: specified_milliseconds(heard.reachable_time),
            retrans_timer: specified_milliseconds(heard.retrans_timer),
        }),
        MessageType::NeighborSolicitation => Message::NeighborSolicitation { target },
        MessageType::NeighborAdvertisement => Message::NeighborAdvertisement {
            target,
            router: heard.router == 1,
            solicited: heard.solicited == 1,
            override_flag: heard.override_flag == 1,
        },
        MessageType::Redirect => Message::Redirect { target, destination: heard.redirected.into() },
        MessageType::Other(number) => Message::Other(number),
    }
}
