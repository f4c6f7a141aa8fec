//! What a node knows: the rows of its tables.

use crate::error::Error;
use crate::numbers::{Preference, Reachability, State};
use crate::options::Limits;
use crate::raw;
use crate::time::{left, to_lifetime};
use std::fmt;
use std::iter::FusedIterator;
use std::net::Ipv6Addr;
use std::time::Duration;

/// The rows of a table, as they were when they were asked for.
///
/// ```
/// # let mut node = nd::Node::open(nd::Options::host([2, 0, 0, 0, 0, 1], 0, nd::Draws::Seed(1)))?;
/// let own = node.addresses(0)?;
/// assert_eq!(own.len(), 1);
/// # Ok::<(), nd::Error>(())
/// ```
#[derive(Clone)]
pub struct Rows<Row> {
    rows: std::vec::IntoIter<Row>,
}

impl<Row> Rows<Row> {
    pub(crate) fn new(rows: Vec<Row>) -> Rows<Row> {
        Rows { rows: rows.into_iter() }
    }
}

impl<Row> Iterator for Rows<Row> {
    type Item = Row;

    fn next(&mut self) -> Option<Row> {
        self.rows.next()
    }

    fn size_hint(&self) -> (usize, Option<usize>) {
        self.rows.size_hint()
    }
}

impl<Row> DoubleEndedIterator for Rows<Row> {
    fn next_back(&mut self) -> Option<Row> {
        self.rows.next_back()
    }
}

impl<Row> ExactSizeIterator for Rows<Row> {}

impl<Row: fmt::Debug> fmt::Debug for Rows<Row> {
    fn fmt(&self, f: &mut fmt::Formatter<'_>) -> fmt::Result {
        f.debug_list().entries(self.rows.as_slice()).finish()
    }
}

impl<Row> FusedIterator for Rows<Row> {}

/// A neighbour (RFC 4861, 5.1).
///
/// ```no_run
/// # fn example(node: &nd::Node) -> Result<(), nd::Error> {
/// for neighbour in node.neighbours(node.last_moment())? {
///     println!("{} {:x?} {:?}", neighbour.address, neighbour.mac, neighbour.state);
/// }
/// # Ok(())
/// # }
/// ```
#[derive(Clone, Copy, Debug, PartialEq, Eq, Hash)]
#[non_exhaustive]
pub struct Neighbour {
    /// Its address.
    pub address: Ipv6Addr,
    /// Its link-layer address. `None` while it is INCOMPLETE.
    pub mac: Option<[u8; 6]>,
    /// IsRouter (RFC 4861, 5.1).
    pub is_router: bool,
    /// Its state (RFC 4861, 7.3.2).
    pub state: Reachability,
    /// What is left of the time for which it is REACHABLE, in milliseconds. `None` in another state.
    pub reachable_left: Option<Duration>,
}

/// A default router (RFC 4861, 5.1).
///
/// ```no_run
/// # fn example(node: &nd::Node) -> Result<(), nd::Error> {
/// for router in node.routers(node.last_moment())? {
///     println!("{} for {:?}", router.address, router.left);
/// }
/// # Ok(())
/// # }
/// ```
#[derive(Clone, Copy, Debug, PartialEq, Eq, Hash)]
#[non_exhaustive]
pub struct Router {
    /// Its link-local address.
    pub address: Ipv6Addr,
    /// What is left of its lifetime, in milliseconds.
    pub left: Duration,
    /// Its preference (RFC 4191, 2.1).
    pub preference: Preference,
}

/// A prefix on the link (RFC 4861, 5.1).
///
/// ```no_run
/// # fn example(node: &nd::Node) -> Result<(), nd::Error> {
/// for prefix in node.prefixes(node.last_moment())? {
///     println!("{}/{}", prefix.prefix, prefix.bits);
/// }
/// # Ok(())
/// # }
/// ```
#[derive(Clone, Copy, Debug, PartialEq, Eq, Hash)]
#[non_exhaustive]
pub struct Prefix {
    /// The prefix.
    pub prefix: Ipv6Addr,
    /// The length of the prefix, 0 to 128.
    pub bits: u8,
    /// What is left of its valid lifetime, in milliseconds. `None` has no end.
    pub left: Option<Duration>,
}

/// An address of the node (RFC 4862, 2).
///
/// ```
/// # let node = nd::Node::open(nd::Options::host([2, 0, 0, 0, 0, 1], 0, nd::Draws::Seed(1)))?;
/// let link_local = node.addresses(0)?.next().unwrap();
/// assert_eq!(link_local.address, "fe80::ff:fe00:1".parse::<std::net::Ipv6Addr>().unwrap());
/// assert_eq!((link_local.state, link_local.valid_left), (nd::State::Tentative, None));
/// # Ok::<(), nd::Error>(())
/// ```
#[derive(Clone, Copy, Debug, PartialEq, Eq, Hash)]
#[non_exhaustive]
pub struct Address {
    /// The address.
    pub address: Ipv6Addr,
    /// Its state.
    pub state: State,
    /// What is left of its preferred lifetime, in milliseconds. Zero: it has ended. `None` has no end.
    pub preferred_left: Option<Duration>,
    /// What is left of its valid lifetime, in milliseconds. Zero: it has ended, and the address is not removed yet. `None` has no end.
    pub valid_left: Option<Duration>,
    /// [`Node::add_address`](crate::Node::add_address) set its lifetimes: no Router Advertisement renews it (RFC 4862, 5.5.3 e).
    pub by_hand: bool,
}

/// An address that a node is given by hand (RFC 4862, 5.4).
///
/// ```
/// use std::time::Duration;
///
/// let day = Duration::from_secs(86_400);
/// let own = nd::OwnAddress { address: "2001:db8::5".parse().unwrap(), valid_lifetime: Some(2 * day), preferred_lifetime: Some(day) };
/// ```
#[derive(Clone, Copy, Debug, PartialEq, Eq, Hash)]
pub struct OwnAddress {
    /// Not multicast, `::` or `::1`.
    pub address: Ipv6Addr,
    /// 1 to 2^32 - 2 s, in whole seconds. `None` has no end.
    pub valid_lifetime: Option<Duration>,
    /// Not above `valid_lifetime`, in whole seconds. `None` has no end.
    pub preferred_lifetime: Option<Duration>,
}

impl OwnAddress {
    /// Returns an address whose lifetimes have no end.
    ///
    /// ```
    /// let own = nd::OwnAddress::without_end("2001:db8::5".parse().unwrap());
    /// assert_eq!((own.valid_lifetime, own.preferred_lifetime), (None, None));
    /// ```
    pub fn without_end(address: Ipv6Addr) -> OwnAddress {
        OwnAddress { address, valid_lifetime: None, preferred_lifetime: None }
    }

    pub(crate) fn to_raw(self) -> Result<raw::nd_own_address, Error> {
        let (valid_lifetime, preferred_lifetime) = (to_lifetime(self.valid_lifetime)?, to_lifetime(self.preferred_lifetime)?);
        Ok(raw::nd_own_address { address: self.address.octets(), valid_lifetime, preferred_lifetime })
    }
}

/// A DNS server (RFC 8106, 5.1).
///
/// ```no_run
/// # fn example(node: &nd::Node) -> Result<(), nd::Error> {
/// for server in node.servers(node.last_moment())? {
///     println!("nameserver {}", server.address);
/// }
/// # Ok(())
/// # }
/// ```
#[derive(Clone, Copy, Debug, PartialEq, Eq, Hash)]
pub struct Server {
    /// Its address.
    pub address: Ipv6Addr,
    /// What is left of its lifetime, in milliseconds. `None` has no end.
    pub left: Option<Duration>,
}

/// A DNS search name (RFC 8106, 5.2).
///
/// ```no_run
/// # fn example(node: &nd::Node) -> Result<(), nd::Error> {
/// let names: Vec<String> = node.names(node.last_moment())?.map(|name| name.text).collect();
/// println!("search {}", names.join(" "));
/// # Ok(())
/// # }
/// ```
#[derive(Clone, Debug, PartialEq, Eq, Hash)]
#[non_exhaustive]
pub struct Name {
    /// Labels joined by dots, 1 to 253 bytes. Only small letters, digits, hyphens and underscores are in a label, so it can be written to a file of a
    /// resolver. A label may begin with a hyphen, as in `-rf.com`: a program that is passed it as an argument may take it for an option.
    pub text: String,
    /// What is left of its lifetime, in milliseconds. `None` has no end.
    pub left: Option<Duration>,
}

/// A Redirect in force (RFC 4861, 8.3).
///
/// ```no_run
/// # fn example(node: &nd::Node) -> Result<(), nd::Error> {
/// for redirect in node.redirects(node.last_moment())? {
///     println!("{} through {}", redirect.destination, redirect.target);
/// }
/// # Ok(())
/// # }
/// ```
#[derive(Clone, Copy, Debug, PartialEq, Eq, Hash)]
pub struct Redirect {
    /// The destination that is redirected.
    pub destination: Ipv6Addr,
    /// Its first hop; the destination itself where that is on the link.
    pub target: Ipv6Addr,
}

/// Where packets to a destination go first (RFC 4861, 5.2).
///
/// ```
/// # let mut node = nd::Node::open(nd::Options::host([2, 0, 0, 0, 0, 1], 0, nd::Draws::Seed(1)))?;
/// assert_eq!(node.next_hop(2000, "fe80::2".parse().unwrap())?, Some(nd::Hop::Direct));
/// # Ok::<(), nd::Error>(())
/// ```
#[derive(Clone, Copy, Debug, PartialEq, Eq, Hash)]
#[non_exhaustive]
pub enum Hop {
    /// The destination is on the link.
    Direct,
    /// Through this router.
    Via(Ipv6Addr),
}

impl Hop {
    /// Returns the hop with this number, whose router has this address.
    pub(crate) fn of_raw(number: u32, router: raw::nd_addr) -> Hop {
        match number {
            raw::ND_HOP_DIRECT => Hop::Direct,
            _ => Hop::Via(router.into()),
        }
    }
}

/// Where packets to a destination go: the answer of [`Node::resolve`](crate::Node::resolve).
///
/// ```no_run
/// # fn transmit(mac: [u8; 6]) {}
/// # fn keep(next_hop: std::net::Ipv6Addr) {}
/// # fn example(path: nd::Path) {
/// match path.mac {
///     Some(mac) => transmit(mac),
///     None => keep(path.next_hop),
/// }
/// # }
/// ```
#[derive(Clone, Copy, Debug, PartialEq, Eq, Hash)]
#[non_exhaustive]
pub struct Path {
    /// The destination, or the router.
    pub next_hop: Ipv6Addr,
    /// Whether the destination is on the link.
    pub hop: Hop,
    /// The link-layer address to send to: that of the next hop, or of a multicast destination (RFC 2464, 7). While it is `None`, keep the packets
    /// until [`Output::Resolved`](crate::Output::Resolved) or [`Output::Failed`](crate::Output::Failed) is reported of the next hop.
    pub mac: Option<[u8; 6]>,
    /// The state of the next hop. `None` where it is multicast, or where the call left something due at its moment.
    pub state: Option<Reachability>,
    /// The end of the lease, a moment in milliseconds. Where it is the moment of the call there is no lease.
    pub until: u64,
    /// The version of the lease. It holds as long as [`Node::lease_version`](crate::Node::lease_version) is the same. 0 while `mac` is `None`.
    pub version: u64,
}

/// The parameters of the link (RFC 4861, 6.3.2).
///
/// ```
/// # let node = nd::Node::open(nd::Options::router([2, 0, 0, 0, 0, 1], 0, nd::Draws::Seed(1)))?;
/// let parameters = node.parameters(0)?;
/// assert_eq!((parameters.mtu, parameters.retrans_timer), (1500, std::time::Duration::from_secs(1)));
/// # Ok::<(), nd::Error>(())
/// ```
#[derive(Clone, Copy, Debug, PartialEq, Eq, Hash)]
#[non_exhaustive]
pub struct Parameters {
    /// ReachableTime in milliseconds, as last drawn.
    pub reachable_time: Duration,
    /// BaseReachableTime in milliseconds.
    pub base_reachable_time: Duration,
    /// RetransTimer in milliseconds.
    pub retrans_timer: Duration,
    /// LinkMTU in bytes, 1280 to 1500.
    pub mtu: u32,
    /// CurHopLimit.
    pub hop_limit: u8,
    /// The Managed flag of the last Router Advertisement: addresses are available by DHCPv6.
    pub managed: bool,
    /// The Other flag of the last Router Advertisement: other configuration is available by DHCPv6.
    pub other: bool,
}

/// How many entries the tables of a node have, and how many they may have. An entry whose lifetime has ended counts until it is removed.
///
/// ```
/// # let node = nd::Node::open(nd::Options::host([2, 0, 0, 0, 0, 1], 0, nd::Draws::Seed(1)))?;
/// let counts = node.counts(0)?;
/// assert_eq!((counts.addresses, counts.limits.addresses), (1, 64));
/// # Ok::<(), nd::Error>(())
/// ```
#[derive(Clone, Copy, Debug, PartialEq, Eq, Hash)]
#[non_exhaustive]
pub struct Counts {
    /// Neighbours (RFC 4861, 5.1).
    pub neighbours: usize,
    /// Default routers (RFC 4861, 5.1).
    pub routers: usize,
    /// Prefixes on the link (RFC 4861, 5.1).
    pub prefixes: usize,
    /// The node's own addresses.
    pub addresses: usize,
    /// DNS servers (RFC 8106, 5.1).
    pub servers: usize,
    /// DNS search names (RFC 8106, 5.2).
    pub names: usize,
    /// Destinations whose Redirects are kept (RFC 4861, 8.3).
    pub redirects: usize,
    /// Prefixes that a router advertises (RFC 4861, 6.2.1).
    pub offers: usize,
    /// Static routes of a router.
    pub routes: usize,
    /// The limits that the node was opened with, the usual numbers in place of 0.
    pub limits: Limits,
}

impl Neighbour {
    pub(crate) fn of_raw(row: raw::nd_neighbour_row) -> Neighbour {
        let mac = (row.has_mac == 1).then_some(row.mac);
        let state = Reachability::from(row.state);
        let reachable_left = (state == Reachability::Reachable).then(|| Duration::from_millis(row.reachable_left));
        Neighbour { address: row.address.into(), mac, is_router: row.is_router == 1, state, reachable_left }
    }
}

impl Path {
    pub(crate) fn of_raw(path: raw::nd_path) -> Path {
        let mac = (path.has_mac == 1).then_some(path.mac);
        let state = (path.state != 0).then(|| path.state.into());
        let hop = Hop::of_raw(path.hop, path.next_hop);
        Path { next_hop: path.next_hop.into(), hop, mac, state, until: path.until, version: path.version }
    }
}

impl Router {
    pub(crate) fn of_raw(row: raw::nd_router_row) -> Router {
        Router { address: row.address.into(), left: Duration::from_millis(row.left), preference: Preference::of_number(row.preference) }
    }
}

impl Prefix {
    pub(crate) fn of_raw(row: raw::nd_prefix_row) -> Prefix {
        Prefix { prefix: row.prefix.into(), bits: row.bits as u8, left: left(row.left) }
    }
}

impl Address {
    pub(crate) fn of_raw(row: raw::nd_address_row) -> Address {
        let (preferred_left, valid_left) = (left(row.preferred_left), left(row.valid_left));
        Address { address: row.address.into(), state: row.state.into(), preferred_left, valid_left, by_hand: row.by_hand == 1 }
    }
}

impl Server {
    pub(crate) fn of_raw(row: raw::nd_server_row) -> Server {
        Server { address: row.address.into(), left: left(row.left) }
    }
}

impl Name {
    pub(crate) fn of_raw(row: raw::nd_name_row) -> Name {
        let length = row.text.len().min(row.length as usize);
        Name { text: String::from_utf8_lossy(&row.text[..length]).into_owned(), left: left(row.left) }
    }
}

impl Redirect {
    pub(crate) fn of_raw(row: raw::nd_redirect_row) -> Redirect {
        Redirect { destination: row.destination.into(), target: row.target.into() }
    }
}

impl Parameters {
    pub(crate) fn of_raw(row: raw::nd_parameters_row) -> Parameters {
        Parameters {
            reachable_time: Duration::from_millis(row.reachable_time),
            base_reachable_time: Duration::from_millis(row.base_reachable_time.into()),
            retrans_timer: Duration::from_millis(row.retrans_timer.into()),
            mtu: row.mtu,
            hop_limit: row.hop_limit,
            managed: row.managed == 1,
            other: row.other == 1,
        }
    }
}

impl Counts {
    pub(crate) fn of_raw(row: raw::nd_counts_row) -> Counts {
        Counts {
            neighbours: row.neighbours as usize,
            routers: row.routers as usize,
            prefixes: row.prefixes as usize,
            addresses: row.addresses as usize,
            servers: row.servers as usize,
            names: row.names as usize,
            redirects: row.redirects as usize,
            offers: row.offers as usize,
            routes: row.routes as usize,
            limits: Limits::of_raw(row.limits),
        }
    }
}
