//! What a node reports.

use crate::error::Refusal;
use crate::numbers::{Limit, Loss, MessageType, Why};
use crate::raw::nd_out;
use std::net::Ipv6Addr;

/// What happened at a node. `Bytes` is the type of its bytes: a `Vec<u8>`, or a slice of the caller's buffer.
///
/// Ignore what you do not know: a later version of the library may report more.
///
/// ```no_run
/// # fn transmit(frame: &[u8]) {}
/// # fn deliver(packet: &[u8]) {}
/// # fn example(node: &mut nd::Node) {
/// use nd::Output;
///
/// for report in node.poll() {
///     match report.output {
///         Output::Frame(frame) => transmit(&frame),
///         Output::Up(packet) => deliver(&packet),
///         Output::Duplicate(address) => eprintln!("{address} is another node's too"),
///         _ => {}
///     }
/// }
/// # }
/// ```
#[derive(Clone, Copy, Debug, PartialEq, Eq, Hash)]
#[non_exhaustive]
pub enum Output<Bytes = Vec<u8>> {
    /// Send these bytes, a whole Ethernet frame without padding and frame check sequence.
    Frame(Bytes),
    /// A valid message was received. [`hear`](crate::hear) says what is in it.
    Heard {
        /// The source of its packet.
        source: Ipv6Addr,
        /// Its ICMPv6 type.
        message_type: MessageType,
    },
    /// A frame was dropped.
    Dropped(Why),
    /// A packet for an assigned address. The bytes begin with its IPv6 header.
    Up(Bytes),
    /// This address of the node is another node's too, and is not used. If it is the link-local one, the node is disabled: close it (RFC 4862,
    /// 5.4.5).
    Duplicate(Ipv6Addr),
    /// This address of the node may be used (RFC 4862, 5.4).
    Assigned(Ipv6Addr),
    /// This address of the node is gone: its valid lifetime has ended (RFC 4862, 5.5.4), or
    /// [`Node::remove_address`](crate::Node::remove_address) removed it.
    EndedAddress(Ipv6Addr),
    /// This router left the default router list (RFC 4861, 6.3.5), or by [`Policies::strict`](crate::Policies::strict) is a router no longer (7.3.3).
    EndedRouter(Ipv6Addr),
    /// This neighbour was not resolved or not reached, and is removed (RFC 4861, 7.2.2 and 7.3.3). Its packets follow as [`Lost`](Output::Lost).
    Failed(Ipv6Addr),
    /// A packet is not sent. The bytes begin with its IPv6 header. ICMPv6 errors are the caller's (RFC 4443, 3.1 and 3.3).
    Lost(Loss, Bytes),
    /// An event was refused. Its call returned [`Error::Refused`](crate::Error::Refused).
    Refused {
        /// Why it was refused.
        refusal: Refusal,
        /// The source of the packet, of [`Refusal::NotOurs`].
        source: Option<Ipv6Addr>,
    },
    /// The link-layer address of a neighbour is known for which [`Node::resolve`](crate::Node::resolve) had none (RFC 4861, 7.2.2). It follows what
    /// [`Node::send`](crate::Node::send) had left waiting.
    Resolved {
        /// The neighbour: the next hop of a path.
        neighbour: Ipv6Addr,
        /// Its link-layer address.
        mac: [u8; 6],
    },
    /// Parts of a message were passed over, by [`Policies::parts`](crate::Policies::parts). This table has no room for them.
    Ignored(Limit),
    /// A kind of a later version of the library.
    Other {
        /// The number of the kind.
        kind: u32,
        /// What the kind says.
        code: u32,
    },
}

/// The tables that may have changed with a report. Besides, a table changes by a call for it, as [`Node::clear`](crate::Node::clear), and by time: a
/// row is gone, or an address [`Deprecated`](crate::State::Deprecated), when what is left of its lifetime has passed, and ReachableTime is drawn anew.
/// The neighbours are not among them: with most frames one of them changes.
///
/// ```
/// use nd::{Changes, Draws, Node, Options};
///
/// let mut node = Node::open(Options::host([2, 0, 0, 0, 0, 1], 0, Draws::Word(0)))?;
/// node.pass(2000)?;
/// let changes = node.poll().fold(Changes::default(), |all, report| all | report.changes);
/// assert!(changes.addresses && !changes.servers);
/// # Ok::<(), nd::Error>(())
/// ```
#[derive(Clone, Copy, Debug, Default, PartialEq, Eq, Hash)]
#[non_exhaustive]
pub struct Changes {
    /// The default routers.
    pub routers: bool,
    /// The prefixes on the link.
    pub prefixes: bool,
    /// The node's own addresses.
    pub addresses: bool,
    /// The DNS servers.
    pub servers: bool,
    /// The DNS search names.
    pub names: bool,
    /// The redirects.
    pub redirects: bool,
    /// The parameters of the link.
    pub parameters: bool,
}

impl Changes {
    /// Returns the tables of a sum.
    fn of(sum: u32) -> Self {
        let has = |number| sum & number != 0;
        Changes { routers: has(1), prefixes: has(2), addresses: has(4), servers: has(8), names: has(16), redirects: has(32), parameters: has(64) }
    }
}

impl std::ops::BitOr for Changes {
    type Output = Self;

    fn bitor(self, other: Self) -> Self {
        Changes {
            routers: self.routers | other.routers,
            prefixes: self.prefixes | other.prefixes,
            addresses: self.addresses | other.addresses,
            servers: self.servers | other.servers,
            names: self.names | other.names,
            redirects: self.redirects | other.redirects,
            parameters: self.parameters | other.parameters,
        }
    }
}

/// What happened at a node, and when.
///
/// ```
/// use nd::{Draws, Node, Options, Output};
///
/// let mut node = Node::open(Options::host([2, 0, 0, 0, 0, 1], 0, Draws::Word(0)))?;
/// node.pass(2000)?;
/// let mut reports = node.poll();
/// assert!(matches!(reports.next().unwrap().output, Output::Frame(_)));
/// let report = reports.next().unwrap();
/// assert_eq!((report.moment, report.output), (1000, Output::Assigned("fe80::ff:fe00:1".parse().unwrap())));
/// # Ok::<(), nd::Error>(())
/// ```
#[derive(Clone, Copy, Debug, PartialEq, Eq, Hash)]
#[non_exhaustive]
pub struct Report<Bytes = Vec<u8>> {
    /// The moment at which it was due or at which its event arrived, in milliseconds.
    pub moment: u64,
    /// What happened.
    pub output: Output<Bytes>,
    /// The tables that may have changed with it.
    pub changes: Changes,
}

/// Returns the link-layer address that a record has as its bytes.
fn mac_in(bytes: &[u8]) -> [u8; 6] {
    bytes.try_into().unwrap_or_default()
}

/// Returns the report of a record with its bytes.
pub(crate) fn report_of<Bytes: AsRef<[u8]>>(out: &nd_out, bytes: Bytes) -> Report<Bytes> {
    let address = Ipv6Addr::from(out.address);
    let refusal = Refusal::of_numbers(out.code, out.limit);
    let output = match out.kind {
        1 => Output::Frame(bytes),
        2 => Output::Heard { source: address, message_type: out.code.into() },
        3 => Output::Dropped(out.code.into()),
        4 => Output::Up(bytes),
        5 => Output::Duplicate(address),
        6 => Output::Assigned(address),
        7 => Output::EndedAddress(address),
        8 => Output::EndedRouter(address),
        9 => Output::Failed(address),
        10 => Output::Lost(out.code.into(), bytes),
        11 => Output::Refused { refusal, source: (refusal == Refusal::NotOurs).then_some(address) },
        13 => Output::Resolved { neighbour: address, mac: mac_in(bytes.as_ref()) },
        14 => Output::Ignored(out.limit.into()),
        kind => Output::Other { kind, code: out.code },
    };
    Report { moment: out.moment, output, changes: Changes::of(out.changes) }
}

#[cfg(test)]
mod tests {
    use super::*;

    #[test]
    fn what_a_later_version_reports_is_kept() {
        let out = nd_out { moment: 7, kind: 12, code: 3, ..Default::default() };
        let output = Output::Other { kind: 12, code: 3 };
        assert_eq!(report_of(&out, Vec::new()), Report { moment: 7, output, changes: Changes::default() });
    }
}
