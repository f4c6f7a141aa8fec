//! What a stack has read of the IPv6 header of a message.

use crate::raw;
use std::net::Ipv6Addr;

/// What a stack has read of the IPv6 header of a message (RFC 8200, 3), for [`Node::receive_message`](crate::Node::receive_message), which has an
/// example.
#[derive(Clone, Copy, Debug, PartialEq, Eq, Hash)]
pub struct Header {
    /// The Source Address.
    pub source: Ipv6Addr,
    /// The Destination Address.
    pub destination: Ipv6Addr,
    /// The Hop Limit.
    pub hop_limit: u8,
    /// The stack has seen that the ICMPv6 checksum is good. Otherwise the node looks.
    pub checksum_good: bool,
}

impl Header {
    pub(crate) fn raw(&self) -> raw::nd_message {
        raw::nd_message {
            source: self.source.octets(),
            destination: self.destination.octets(),
            hop_limit: self.hop_limit,
            checksum_good: u8::from(self.checksum_good),
            reserved: 0,
        }
    }
}
