//! How a node is opened.

use crate::raw;

/// What a node is.
///
/// ```
/// let options = nd::Options::router([2, 0, 0, 0, 0, 1], 0, nd::Draws::Seed(1));
/// assert_eq!(options.role, nd::Role::Router);
/// ```
#[derive(Clone, Copy, Debug, PartialEq, Eq, Hash)]
#[non_exhaustive]
pub enum Role {
    /// A host (RFC 4861, 6.3).
    Host = 0,
    /// A router (RFC 4861, 6.2). It forms its link-local address alone, and takes no Router Advertisement.
    Router = 1,
}

/// Where a node's random words are from.
///
/// ```
/// # fn random_u64() -> u64 { 1 }
/// let draws = nd::Draws::Seed(random_u64());
/// ```
#[derive(Clone, Copy, Debug, PartialEq, Eq, Hash)]
#[non_exhaustive]
pub enum Draws {
    /// PCG32 with this seed. Take it from the system's entropy, so that machines that start together do not send together (RFC 4861, 6.3.7).
    Seed(u64),
    /// Each word is this one: for tests.
    Word(u32),
}

/// What a node does on a link that is not trusted, each where it is asked for. The default is none. `nd.h` names four more, which are not built yet: a
/// node with one of them is refused.
///
/// ```
/// let mut policies = nd::Policies::default();
/// policies.timers = true;
/// assert!(policies != nd::Policies::robust());
/// ```
#[derive(Clone, Copy, Debug, Default, PartialEq, Eq, Hash)]
#[non_exhaustive]
pub struct Policies {
    /// A message is taken in part where a table has no room for all of it, and none is refused for a limit (RFC 8106, 5.3.1). Of a Router
    /// Advertisement what has room is taken, in order, and what has none is passed over: the router, a prefix on the link, an address that would
    /// form, a server, a search name. A refresh or a removal never is. A link-layer address that would need a new neighbour where the cache is full
    /// makes no entry. A solicitation whose asker gets no entry is answered to the link-layer address that it gives, unless that is a group's, and is
    /// not answered otherwise. [`Output::Ignored`](crate::Output::Ignored) reports each limit of which a part was passed over.
    pub parts: bool,
    /// What is known to live goes before what is only asked for. Where a message gives the link-layer address of a new neighbour, the cache is full,
    /// and none is STALE, the INCOMPLETE neighbour that was asked for longest fails instead of a refusal. The answer to a solicitation is no use of
    /// the asker's entry, which stays STALE and may go.
    pub speakers: bool,
    /// Of a Router Advertisement, a Cur Hop Limit below 32, a Reachable Time outside 1,000 to 3,600,000 ms and a Retrans Timer outside 100 to 30,000
    /// ms are read as 0, unspecified (RFC 4861, 4.2).
    pub timers: bool,
    /// A message whose source is one of the node's assigned addresses is dropped as [`Why::NotForUs`](crate::Why::NotForUs), and so is a packet in
    /// transit whose source is an address of its own. A source or target link-layer address that is a group's, zeros or the node's own is passed
    /// over, as if the option were not there. This is `ND_POLICY_SELF`.
    pub own: bool,
    /// A router sends on only packets whose frame has its own address as the Ethernet destination, and drops others that are not for it. At a host it
    /// has no effect.
    pub unicast: bool,
    /// The flag A of each prefix option is read as 0, so that an advertisement forms and renews no address (RFC 4862, 5.5.3 a), and draws no delay
    /// for one. The caller forms addresses by rules of its own (RFC 7217, RFC 8981), and gives them to the node by
    /// [`Node::add_address`](crate::Node::add_address).
    pub unformed: bool,
    /// The flag S of a Neighbor Advertisement is read as 0 unless the entry of its target is INCOMPLETE or in PROBE: in no other state is a
    /// solicitation of the node's out. By RFC 4861, 7.2.5, the flag confirms an entry in any state. Whether an advertisement is valid is judged by
    /// the flag as it was sent ([`Why::SolicitedMulticast`](crate::Why::SolicitedMulticast)).
    pub asked: bool,
    /// A Router Lifetime above 9,000 s is read as 9,000, the most that a router may be set to (RFC 4861, 6.2.1). A valid or preferred lifetime of a
    /// prefix (4.6.2), and a lifetime of DNS servers or search names (RFC 8106, 5.1 and 5.2), that is above 604,800 s or has no end is read as
    /// 604,800, a week. What follows from a lifetime, such as whether an address forms, is judged by what was read. Addresses of
    /// [`Node::add_address`](crate::Node::add_address) keep theirs.
    pub lifetimes: bool,
    /// A host drops each Redirect as [`Why::NotForUs`](crate::Why::NotForUs). At a router, which takes none, it has no effect.
    pub unredirected: bool,
    /// What an RFC forbids to send, and a node takes by default, is dropped as [`Why::NotForUs`](crate::Why::NotForUs): a Router or Neighbor
    /// Solicitation from `::` with an option of type 1 of any length (RFC 4861, 6.1.1 and 7.1.1); a Neighbor Solicitation from another source to a
    /// multicast address, without a Source Link-Layer Address that counts (4.3); a message from `::1`, and a packet for the node from `::1` or from a
    /// multicast address (RFC 4291, 2.5.3 and 2.7). And at a host a neighbour that says that it is a router no longer ends as one
    /// ([`Output::EndedRouter`](crate::Output::EndedRouter)) also if it is not in the list of routers, so that Redirects to it end (RFC 4861, 7.3.3).
    pub strict: bool,
}

impl Policies {
    /// Returns those that are recommended on a link that is not trusted: all but `unformed` and `unredirected`, since a host may need what these leave
    /// out. What is heard is never refused for a limit then. A forwarded packet and the caller's own events still are.
    ///
    /// ```
    /// let policies = nd::Policies::robust();
    /// assert!(policies.parts && policies.speakers && policies.timers && policies.own && policies.unicast);
    /// assert!(policies.asked && policies.lifetimes && policies.strict);
    /// assert!(!policies.unformed && !policies.unredirected);
    /// ```
    pub fn robust() -> Policies {
        Policies {
            parts: true,
            speakers: true,
            timers: true,
            own: true,
            unicast: true,
            asked: true,
            lifetimes: true,
            strict: true,
            ..Policies::default()
        }
    }

    fn number(self) -> u32 {
        let each = [
            (self.parts, raw::ND_POLICY_PARTS),
            (self.speakers, raw::ND_POLICY_SPEAKERS),
            (self.timers, raw::ND_POLICY_TIMERS),
            (self.own, raw::ND_POLICY_SELF),
            (self.unicast, raw::ND_POLICY_UNICAST),
            (self.unformed, raw::ND_POLICY_UNFORMED),
            (self.asked, raw::ND_POLICY_ASKED),
            (self.lifetimes, raw::ND_POLICY_LIFETIMES),
            (self.unredirected, raw::ND_POLICY_UNREDIRECTED),
            (self.strict, raw::ND_POLICY_STRICT),
        ];
        each.into_iter().filter(|(is_chosen, _)| *is_chosen).map(|(_, number)| number).sum()
    }
}

/// How many rows each table of a node has at most, and how many packets wait for one neighbour.
///
/// 0, the default, is the usual number. A limit on a table that the role does not have is accepted.
///
/// ```
/// let mut limits = nd::Limits::default();
/// limits.neighbours = 8;
/// limits.routers = 2;
/// assert!(nd::node_bytes(&limits) < nd::node_bytes(&nd::Limits::default()));
/// ```
#[derive(Clone, Copy, Debug, Default, PartialEq, Eq, Hash)]
#[non_exhaustive]
pub struct Limits {
    /// Neighbours (RFC 4861, 5.1), 1 to 2048; 0: 512.
    pub neighbours: u16,
    /// Default routers (RFC 4861, 6.3.4), 1 to 64; 0: 16.
    pub routers: u16,
    /// Prefixes on the link (RFC 4861, 5.1), 1 to 64; 0: 64.
    pub prefixes: u16,
    /// The node's own addresses, the link-local one included, 1 to 64; 0: 64.
    pub addresses: u16,
    /// DNS servers (RFC 8106, 5.3.1), 1 to 32; 0: 32.
    pub servers: u16,
    /// DNS search names (RFC 8106, 5.3.1), 1 to 32; 0: 32.
    pub names: u16,
    /// Destinations whose Redirects are kept, 1 to 64; 0: 64.
    pub redirects: u16,
    /// Destinations whose next hops are remembered, which no call shows, 1 to 256; 0: 256.
    pub destinations: u16,
    /// Prefixes that a router advertises, 1 to 16; 0: 16.
    pub offers: u16,
    /// Static routes of a router, 1 to 64; 0: 64.
    pub routes: u16,
    /// Packets that wait for the link-layer address of one neighbour (RFC 4861, 7.2.2), 1 to 8; 0: 3.
    pub waiting: u16,
}

impl Limits {
    pub(crate) fn to_raw(self) -> raw::nd_limits {
        let Limits { neighbours, routers, prefixes, addresses, servers, names, redirects, destinations, offers, routes, waiting } = self;
        let reserved = [0; 5];
        raw::nd_limits { neighbours, routers, prefixes, addresses, servers, names, redirects, destinations, offers, routes, waiting, reserved }
    }

    pub(crate) fn of_raw(limits: raw::nd_limits) -> Limits {
        let raw::nd_limits { neighbours, routers, prefixes, addresses, servers, names, redirects, destinations, offers, routes, waiting, .. } =
            limits;
        Limits { neighbours, routers, prefixes, addresses, servers, names, redirects, destinations, offers, routes, waiting }
    }
}

/// How a node is opened.
///
/// ```
/// use nd::{Draws, Node, Options, Policies};
///
/// # fn random_u64() -> u64 { 1 }
/// let mut options = Options::host([0x34, 0x56, 0x78, 0x9a, 0xbc, 0xde], 0, Draws::Seed(random_u64()));
/// options.policies = Policies::robust();
/// options.limits.neighbours = 64;
/// let node = Node::open(options)?;
/// # Ok::<(), nd::Error>(())
/// ```
#[derive(Clone, Debug, PartialEq, Eq, Hash)]
#[non_exhaustive]
pub struct Options {
    /// A host or a router.
    pub role: Role,
    /// The interface's own address.
    pub mac: [u8; 6],
    /// The moment of the start, in milliseconds.
    pub start: u64,
    /// Where the random words are from.
    pub draws: Draws,
    /// DupAddrDetectTransmits (RFC 4862, 5.1), 1 to 8; 0: 1.
    pub transmits: u8,
    /// How many rows the tables have at most.
    pub limits: Limits,
    /// What it does on a link that is not trusted.
    pub policies: Policies,
    /// Where [`Node::lease_version`](crate::Node::lease_version) begins; 0: at 1. If it is above the last one of an earlier node, no path of that node
    /// has a version of this one.
    pub lease_version: u64,
}

impl Options {
    /// Returns the options of a host with the usual limits and no policy. `mac` is the interface's own address, and `start` the moment of the start,
    /// in milliseconds.
    ///
    /// ```
    /// let options = nd::Options::host([2, 0, 0, 0, 0, 1], 3000, nd::Draws::Seed(1));
    /// assert_eq!((options.role, options.start, options.transmits), (nd::Role::Host, 3000, 1));
    /// ```
    pub fn host(mac: [u8; 6], start: u64, draws: Draws) -> Options {
        Options { role: Role::Host, mac, start, draws, transmits: 1, limits: Limits::default(), policies: Policies::default(), lease_version: 0 }
    }

    /// Returns the options of a router with the usual limits and no policy. `mac` is the interface's own address, and `start` the moment of the
    /// start, in milliseconds.
    ///
    /// ```
    /// let options = nd::Options::router([2, 0, 0, 0, 0, 1], 3000, nd::Draws::Seed(1));
    /// assert_eq!((options.role, options.limits), (nd::Role::Router, nd::Limits::default()));
    /// ```
    pub fn router(mac: [u8; 6], start: u64, draws: Draws) -> Options {
        Options { role: Role::Router, ..Options::host(mac, start, draws) }
    }

    pub(crate) fn to_raw(&self) -> raw::nd_options {
        let (draws, seed) = match self.draws {
            Draws::Seed(seed) => (raw::ND_DRAWS_SEED, seed),
            Draws::Word(word) => (raw::ND_DRAWS_WORD, word.into()),
        };
        raw::nd_options {
            role: self.role as u32,
            mac: self.mac,
            transmits: self.transmits,
            draws,
            policies: self.policies.number(),
            start: self.start,
            seed,
            limits: self.limits.to_raw(),
            lease_version: self.lease_version,
            identifier: [0; 8],
        }
    }
}
