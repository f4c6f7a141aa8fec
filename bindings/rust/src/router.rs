//! What a router is to advertise, and where it forwards.

use crate::error::Error;
use crate::numbers::Preference;
use crate::raw;
use crate::rows::Hop;
use crate::time::{lifetime, specified, specified_milliseconds, to_lifetime, to_milliseconds, to_seconds, to_specified};
use std::net::Ipv6Addr;
use std::time::Duration;

/// What a router advertises (RFC 4861, 6.2.1). The default is that of RFC 4861: an advertisement each 198 to 600 s with a router lifetime of 1800 s
/// and a hop limit of 64, and all else unspecified.
///
/// ```
/// use std::time::Duration;
///
/// let mut settings = nd::Advertising::default();
/// settings.min_interval = Duration::from_secs(3);
/// settings.max_interval = Duration::from_secs(4);
/// settings.mtu = Some(1400);
/// assert_eq!(settings.lifetime, Duration::from_secs(1800));
/// ```
#[derive(Clone, Copy, Debug, PartialEq, Eq, Hash)]
#[non_exhaustive]
pub struct Advertising {
    /// MinRtrAdvInterval: 3 s to 3/4 of `max_interval`, in whole seconds.
    pub min_interval: Duration,
    /// MaxRtrAdvInterval: 4 s to 1800 s, in whole seconds.
    pub max_interval: Duration,
    /// AdvDefaultLifetime: `max_interval` to 9000 s, in whole seconds. Zero: it is not a default router.
    pub lifetime: Duration,
    /// AdvReachableTime: 1 ms to 3600 s, in whole milliseconds. `None`: unspecified.
    pub reachable_time: Option<Duration>,
    /// AdvRetransTimer: 1 ms to 2^32 - 1 ms, in whole milliseconds. `None`: unspecified.
    pub retrans_timer: Option<Duration>,
    /// AdvLinkMTU: 1280 to 1500 bytes. `None`: it is not advertised.
    pub mtu: Option<u32>,
    /// AdvCurHopLimit: 1 to 255. `None`: unspecified.
    pub hop_limit: Option<u8>,
    /// AdvManagedFlag: addresses are available by DHCPv6.
    pub managed: bool,
    /// AdvOtherConfigFlag: other configuration is available by DHCPv6.
    pub other: bool,
    /// The preference (RFC 4191, 2.2). It is medium where `lifetime` is zero.
    pub preference: Preference,
}

impl Default for Advertising {
    fn default() -> Advertising {
        Advertising {
            min_interval: Duration::from_secs(198),
            max_interval: Duration::from_secs(600),
            lifetime: Duration::from_secs(1800),
            reachable_time: None,
            retrans_timer: None,
            mtu: None,
            hop_limit: Some(64),
            managed: false,
            other: false,
            preference: Preference::Medium,
        }
    }
}

impl Advertising {
    pub(crate) fn to_raw(self) -> Result<raw::nd_advertising, Error> {
        Ok(raw::nd_advertising {
            min_interval: to_seconds(self.min_interval)?,
            max_interval: to_seconds(self.max_interval)?,
            lifetime: to_seconds(self.lifetime)?,
            reachable_time: to_specified(self.reachable_time.map(to_milliseconds).transpose()?)?,
            retrans_timer: to_specified(self.retrans_timer.map(to_milliseconds).transpose()?)?,
            mtu: to_specified(self.mtu)?,
            hop_limit: to_specified(self.hop_limit)?,
            managed: self.managed.into(),
            other: self.other.into(),
            preference: self.preference as u8,
            reserved: 0,
        })
    }

    pub(crate) fn of_raw(row: raw::nd_advertising) -> Advertising {
        Advertising {
            min_interval: Duration::from_secs(row.min_interval.into()),
            max_interval: Duration::from_secs(row.max_interval.into()),
            lifetime: Duration::from_secs(row.lifetime.into()),
            reachable_time: specified_milliseconds(row.reachable_time),
            retrans_timer: specified_milliseconds(row.retrans_timer),
            mtu: specified(row.mtu),
            hop_limit: specified(row.hop_limit),
            managed: row.managed == 1,
            other: row.other == 1,
            preference: Preference::of_number(row.preference.into()),
        }
    }
}

/// A prefix that a router advertises (RFC 4861, 6.2.1, AdvPrefixList).
///
/// ```
/// use std::time::Duration;
///
/// let mut offer = nd::Offer::new("2001:db8::".parse().unwrap(), 64);
/// assert_eq!(offer.valid_lifetime, Some(Duration::from_secs(2_592_000)));
/// offer.valid_lifetime = None; // without an end
/// ```
#[derive(Clone, Copy, Debug, PartialEq, Eq, Hash)]
#[non_exhaustive]
pub struct Offer {
    /// Not link-local or multicast. Bits past its length are zeroed.
    pub prefix: Ipv6Addr,
    /// The length of the prefix, 0 to 128.
    pub bits: u8,
    /// AdvValidLifetime: 0 to 2^32 - 2 s, in whole seconds. `None` has no end.
    pub valid_lifetime: Option<Duration>,
    /// AdvPreferredLifetime: not above `valid_lifetime`, in whole seconds. `None` has no end.
    pub preferred_lifetime: Option<Duration>,
    /// AdvOnLinkFlag: addresses with the prefix are on the link.
    pub on_link: bool,
    /// AdvAutonomousFlag: hosts form addresses with the prefix (RFC 4862, 5.5.3).
    pub autonomous: bool,
}

impl Offer {
    /// Returns an offer with the defaults of RFC 4861, 6.2.1: on the link, for hosts to form addresses, valid for 30 days and preferred for 7 days.
    ///
    /// ```
    /// let offer = nd::Offer::new("2001:db8::".parse().unwrap(), 64);
    /// assert!(offer.on_link && offer.autonomous);
    /// ```
    pub fn new(prefix: Ipv6Addr, bits: u8) -> Offer {
        let (valid, preferred) = (Duration::from_secs(2_592_000), Duration::from_secs(604_800));
        Offer { prefix, bits, valid_lifetime: Some(valid), preferred_lifetime: Some(preferred), on_link: true, autonomous: true }
    }

    pub(crate) fn to_raw(self) -> Result<raw::nd_offer_row, Error> {
        Ok(raw::nd_offer_row {
            prefix: self.prefix.octets(),
            bits: self.bits.into(),
            valid_lifetime: to_lifetime(self.valid_lifetime)?,
            preferred_lifetime: to_lifetime(self.preferred_lifetime)?,
            on_link: self.on_link.into(),
            autonomous: self.autonomous.into(),
            reserved: [0; 2],
        })
    }
}

impl Offer {
    pub(crate) fn of_raw(row: raw::nd_offer_row) -> Offer {
        Offer {
            prefix: row.prefix.into(),
            bits: row.bits as u8,
            valid_lifetime: lifetime(row.valid_lifetime),
            preferred_lifetime: lifetime(row.preferred_lifetime),
            on_link: row.on_link == 1,
            autonomous: row.autonomous == 1,
        }
    }
}

/// A static route of a router (RFC 4861, 5.2).
///
/// ```
/// use nd::{Hop, Route};
///
/// let route = Route { prefix: "2001:db8:1::".parse().unwrap(), bits: 48, hop: Hop::Via("fe80::2".parse().unwrap()) };
/// ```
#[derive(Clone, Copy, Debug, PartialEq, Eq, Hash)]
pub struct Route {
    /// Bits past its length are zeroed.
    pub prefix: Ipv6Addr,
    /// The length of the prefix, 0 to 128.
    pub bits: u8,
    /// Where packets with this prefix go. The router is on the link; its address is not checked.
    pub hop: Hop,
}

impl Route {
    pub(crate) fn to_raw(self) -> raw::nd_route_row {
        let (hop, router) = match self.hop {
            Hop::Direct => (raw::ND_HOP_DIRECT, [0; 16]),
            Hop::Via(router) => (raw::ND_HOP_VIA, router.octets()),
        };
        raw::nd_route_row { prefix: self.prefix.octets(), router, bits: self.bits.into(), hop }
    }
}

impl Route {
    pub(crate) fn of_raw(row: raw::nd_route_row) -> Route {
        Route { prefix: row.prefix.into(), bits: row.bits as u8, hop: Hop::of_raw(row.hop, row.router) }
    }
}
