//! A node.
//!
//! What the calls of the library owe is the same for each: the slot is that of an open node, and no other call uses it meanwhile, since `Node` is not
//! `Sync` and no call is made by another one. The structures, slices and addresses behind the pointers are borrowed for as long as the call runs, no
//! pointer is null, and what is written overlaps nothing else.

use crate::error::{done, found, Error};
use crate::header::Header;
use crate::numbers::Clearable;
use crate::options::Options;
use crate::output::{report_of, Report};
use crate::raw;
use crate::router::{Advertising, Offer, Route};
use crate::rows::{Address, Counts, Hop, Name, Neighbour, OwnAddress, Parameters, Path, Prefix, Redirect, Router, Rows, Server};
use crate::time::to_milliseconds_up;
use std::cell::UnsafeCell;
use std::iter::FusedIterator;
use std::net::Ipv6Addr;
use std::time::Duration;

/// A host or a router on one Ethernet interface.
///
/// A moment `now` is a number of milliseconds from a beginning of the caller's choice, below [`MOMENT_LIMIT`](crate::MOMENT_LIMIT). Moments of one
/// node never decrease; equal ones are fine. Use a clock that is never set back.
///
/// A call that takes `&mut self` and a moment is an event. It first does what is due up to `now`, and then what it says. Each may return
/// [`Error::Invalid`] for a moment of `MOMENT_LIMIT` or above, [`Error::Past`], and [`Error::NoMemory`]. What it does is reported: take the reports
/// with [`poll`](Node::poll) after each call.
///
/// A call that takes `&self` and a moment is a question, and changes nothing. A `now` after [`last_moment`](Node::last_moment) asks what holds then
/// if nothing is due before. Each may return [`Error::Invalid`] and [`Error::Past`].
///
/// A node is closed where it is dropped. Nothing is sent then, and reports that were not taken are lost. A router calls
/// [`stop_advertising`](Node::stop_advertising) and polls before.
///
/// ```
/// use nd::{Draws, Node, Options, Output};
///
/// let mut node = Node::open(Options::host([2, 0, 0, 0, 0, 1], 0, Draws::Seed(1)))?;
/// node.pass(2000)?;
/// let link_local = node.addresses(2000)?.next().unwrap();
/// assert!(node.poll().any(|report| report.output == Output::Assigned(link_local.address)));
/// # Ok::<(), nd::Error>(())
/// ```
///
/// It may go from thread to thread, and is used by one at a time:
///
/// ```
/// fn sent<T: Send>() {}
/// sent::<nd::Node>();
/// ```
///
/// ```compile_fail
/// fn shared<T: Sync>() {}
/// shared::<nd::Node>();
/// ```
#[derive(Debug)]
pub struct Node {
    slot: UnsafeCell<raw::nd_node>,
}

/// # Safety
/// A call uses what it is passed, the node's own blocks of memory, and constants. The library has no variables, neither static ones nor those of a
/// thread, and a block does not depend on the thread that requested it. So a node may go to another thread; that its parts may is proved of the
/// library's source. The memory functions are those of `std::alloc`, which any thread may call, or the program promises the same of its own.
unsafe impl Send for Node {}

impl Drop for Node {
    fn drop(&mut self) {
        unsafe { raw::nd_close(self.slot.get()) }
    }
}

/// Time.
impl Node {
    /// Opens a node. It draws its ReachableTime, forms its link-local address, and will detect whether that is a duplicate (RFC 4861, 6.3.2; RFC
    /// 4862, 5.3 and 5.4). Nothing is reported yet.
    ///
    /// # Errors
    /// [`Error::Invalid`]: an option is outside its range. [`Error::NoMemory`].
    ///
    /// ```
    /// use nd::{Draws, Error, Node, Options};
    ///
    /// let mut options = Options::host([2, 0, 0, 0, 0, 1], 3000, Draws::Seed(1));
    /// let node = Node::open(options.clone())?;
    /// assert_eq!(node.last_moment(), 3000);
    /// options.transmits = 9;
    /// assert_eq!(Node::open(options).err(), Some(Error::Invalid));
    /// # Ok::<(), Error>(())
    /// ```
    pub fn open(options: Options) -> Result<Node, Error> {
        let node = Node { slot: UnsafeCell::new(raw::nd_node { is_open: false, at: std::ptr::null_mut() }) };
        let options = options.to_raw();
        done(unsafe { raw::nd_open(node.slot.get(), &options, std::mem::size_of::<raw::nd_options>()) })?;
        Ok(node)
    }

    /// Returns the moment up to which time has passed, in milliseconds: that of the start or of the last event. What [`next_hop`](Node::next_hop)
    /// finds due, or a call that returns [`Error::NoMemory`], moves it to the last thing that was done.
    ///
    /// ```
    /// # let mut node = nd::Node::open(nd::Options::host([2, 0, 0, 0, 0, 1], 0, nd::Draws::Seed(1)))?;
    /// node.pass(2000)?;
    /// assert_eq!(node.last_moment(), 2000);
    /// # Ok::<(), nd::Error>(())
    /// ```
    pub fn last_moment(&self) -> u64 {
        unsafe { raw::nd_last_moment(self.slot.get()) }
    }

    /// Returns the earliest moment at which something is due, in milliseconds: call [`pass`](Node::pass) then, or any other event. It is never before
    /// [`last_moment`](Node::last_moment), and at most 7,200,000 ms after it (RFC 4861, 6.3.4).
    ///
    /// ```
    /// use std::time::Duration;
    ///
    /// # let mut node = nd::Node::open(nd::Options::host([2, 0, 0, 0, 0, 1], 0, nd::Draws::Seed(1)))?;
    /// # let now = 2000;
    /// node.pass(now)?;
    /// assert!(node.next_due() > now);
    /// let longest_wait = Duration::from_millis(node.next_due().saturating_sub(now));
    /// # Ok::<(), nd::Error>(())
    /// ```
    pub fn next_due(&self) -> u64 {
        unsafe { raw::nd_next_due(self.slot.get()) }
    }

    /// Lets time pass up to `now`, and does all that is due (RFC 4861, 6.2.4, 6.2.6, 6.3.5, 6.3.7, 7.2.2 and 7.3.3; RFC 4862, 5.4 and 5.5.4).
    ///
    /// # Errors
    /// [`Error::Invalid`], [`Error::Past`]. [`Error::NoMemory`]: take all reports, and call again.
    ///
    /// ```
    /// # use nd::Error;
    /// # let mut node = nd::Node::open(nd::Options::host([2, 0, 0, 0, 0, 1], 0, nd::Draws::Seed(1)))?;
    /// node.pass(2000)?;
    /// assert_eq!(node.pass(1999), Err(Error::Past));
    /// # Ok::<(), Error>(())
    /// ```
    pub fn pass(&mut self, now: u64) -> Result<(), Error> {
        done(unsafe { raw::nd_pass(self.slot.get(), now) })
    }
}

/// Events at a host or a router.
impl Node {
    /// Receives a frame, from its Ethernet destination on, without a VLAN tag and without a frame check sequence (RFC 4861, 6.1, 6.2.6, 6.3.4, 7.1,
    /// 7.2.3 to 7.2.5 and 8; RFC 4862, 5.4 and 5.5.3; RFC 8106, 5). Padding is ignored. The [crate](crate#frames) says which frames are passed.
    ///
    /// [`Output::Heard`], [`Output::Dropped`] or [`Output::Up`] says what the frame was. What follows from a message is reported after `Heard`. A
    /// packet in transit has no such report: a router forwards it, which is [`Output::Frame`] or [`Output::Lost`], now or once the link-layer address
    /// of its next hop is known.
    ///
    /// # Errors
    /// [`Error::Refused`] with [`Refusal::Full`], but not of a message with [`Policies::parts`](crate::Policies::parts): a part of it would pass a
    /// limit. No part of it was taken. The errors of [every event](Node).
    ///
    /// ```no_run
    /// # fn wait_for_frame() -> Option<Vec<u8>> { None }
    /// # fn clock_ms() -> u64 { 0 }
    /// # fn example(node: &mut nd::Node) -> Result<(), nd::Error> {
    /// if let Some(frame) = wait_for_frame() {
    ///     match node.receive(clock_ms(), &frame) {
    ///         Err(nd::Error::Refused(refusal)) => eprintln!("a frame is not taken: {refusal}"),
    ///         other => other?,
    ///     }
    /// }
    /// # Ok(())
    /// # }
    /// ```
    ///
    /// [`Output::Heard`]: crate::Output::Heard
    /// [`Output::Dropped`]: crate::Output::Dropped
    /// [`Output::Up`]: crate::Output::Up
    /// [`Output::Frame`]: crate::Output::Frame
    /// [`Output::Lost`]: crate::Output::Lost
    /// [`Refusal::Full`]: crate::Refusal::Full
    pub fn receive(&mut self, now: u64, frame: &[u8]) -> Result<(), Error> {
        done(unsafe { raw::nd_receive(self.slot.get(), now, frame.as_ptr(), frame.len()) })
    }

    /// Receives a message of a stack that has taken it out of its packet: `bytes` are those of ICMPv6, from the type on. It is what
    /// [`receive`](Node::receive) does with the frame that has these fields and these bytes, and the right checksum in it if the stack has seen that it
    /// is good. A message that came in fragments is the caller's to drop (RFC 6980, 5). [`Error::Invalid`] for more than 65,535 bytes or another type than
    /// 133 to 137, and the errors of [every event](Node).
    ///
    /// ```
    /// # let mut node = nd::Node::open(nd::Options::host([2, 0, 0, 0, 0, 1], 0, nd::Draws::Seed(1)))?;
    /// let header = nd::Header { source: "fe80::1".parse()?, destination: "ff02::1".parse()?, hop_limit: 64, checksum_good: true };
    /// node.receive_message(0, &header, &[134, 0, 0, 0])?;
    /// let dropped = nd::Output::Dropped(nd::Why::HopLimit); // RFC 4861, 6.1.2
    /// assert!(node.poll().any(|report| report.output == dropped));
    /// # Ok::<(), Box<dyn std::error::Error>>(())
    /// ```
    pub fn receive_message(&mut self, now: u64, header: &Header, bytes: &[u8]) -> Result<(), Error> {
        let message = header.raw();
        done(unsafe { raw::nd_receive_message(self.slot.get(), now, &message, bytes.as_ptr(), bytes.len()) })
    }

    /// Sends a packet of an upper layer (RFC 4861, 5.2, 7.2.2 and 7.3.3). `source` is an assigned address of the node, which the caller chooses.
    /// `next_header` and `payload` are what the IPv6 header says and what follows it, with its own checksum. The node writes the Ethernet and IPv6
    /// headers: traffic class and flow label 0, and the hop limit of [`parameters`](Node::parameters).
    ///
    /// The packet is in an [`Output::Frame`](crate::Output::Frame), or it waits for the link-layer address of its next hop. Where as many packets
    /// wait as [`Limits::waiting`](crate::Limits::waiting) says, it replaces the oldest, which is [`Output::Lost`](crate::Output::Lost).
    ///
    /// # Errors
    /// [`Error::NoRoute`]. [`Error::Refused`] with [`Refusal::Disabled`](crate::Refusal::Disabled), [`Refusal::NotOurs`](crate::Refusal::NotOurs),
    /// [`Refusal::TooLong`](crate::Refusal::TooLong) where 40 bytes and the payload are more than the MTU, or
    /// [`Refusal::Full`](crate::Refusal::Full). The errors of [every event](Node).
    ///
    /// ```
    /// use nd::{Draws, Error, Node, Options};
    ///
    /// let mut node = Node::open(Options::host([2, 0, 0, 0, 0, 1], 0, Draws::Seed(1)))?;
    /// node.pass(2000)?;
    /// let own = node.addresses(2000)?.next().unwrap().address;
    /// node.send(2000, own, "fe80::2".parse().unwrap(), 17, &[0; 8])?; // it waits
    /// assert_eq!(node.send(2000, own, "2001:db8::1".parse().unwrap(), 17, &[0; 8]), Err(Error::NoRoute));
    /// # Ok::<(), Error>(())
    /// ```
    pub fn send(&mut self, now: u64, source: Ipv6Addr, destination: Ipv6Addr, next_header: u8, payload: &[u8]) -> Result<(), Error> {
        let (source, destination) = (source.octets(), destination.octets());
        let status = unsafe { raw::nd_send(self.slot.get(), now, &source, &destination, next_header, payload.as_ptr(), payload.len()) };
        if status == raw::ND_NOTHING {
            return Err(Error::NoRoute);
        }
        done(status)
    }

    /// Confirms that a neighbour is reached, since an upper layer made forward progress through it (RFC 4861, 7.3.1). `neighbour` is the next hop,
    /// which [`next_hop`](Node::next_hop) finds, and not the far end of a connection. It is REACHABLE for ReachableTime from now, if its link-layer
    /// address is known; else nothing has changed.
    ///
    /// # Errors
    /// The errors of [every event](Node).
    ///
    /// ```
    /// # let mut node = nd::Node::open(nd::Options::host([2, 0, 0, 0, 0, 1], 0, nd::Draws::Seed(1)))?;
    /// let neighbour = "fe80::2".parse().unwrap();
    /// node.confirm(2000, neighbour)?;
    /// assert_eq!(node.neighbour(2000, neighbour)?, None); // it was not known
    /// # Ok::<(), nd::Error>(())
    /// ```
    pub fn confirm(&mut self, now: u64, neighbour: Ipv6Addr) -> Result<(), Error> {
        done(unsafe { raw::nd_confirm(self.slot.get(), now, &neighbour.octets()) })
    }

    /// Confirms the next hop of a destination, since an upper layer knows that packets to it arrive (RFC 4861, 7.3.1). It finds the next hop as
    /// [`next_hop`](Node::next_hop) does, and confirms it as [`confirm`](Node::confirm) does, if that makes it REACHABLE, or moves the end of its
    /// ReachableTime by `least` or more. So it may be called for each sign of life: in the lease of a path it costs little.
    ///
    /// `least` is rounded up to whole milliseconds. Returns true if the neighbour is REACHABLE for ReachableTime from now, and false if nothing has
    /// changed but what was due: there is no next hop, its link-layer address is not known, it was confirmed lately, or the destination is multicast.
    ///
    /// # Errors
    /// The errors of [every event](Node).
    ///
    /// ```
    /// use std::time::Duration;
    ///
    /// # let mut node = nd::Node::open(nd::Options::host([2, 0, 0, 0, 0, 1], 0, nd::Draws::Seed(1)))?;
    /// let is_confirmed = node.confirm_to(2000, "2001:db8::1".parse().unwrap(), Duration::from_secs(1))?;
    /// assert!(!is_confirmed); // there is no next hop
    /// # Ok::<(), nd::Error>(())
    /// ```
    pub fn confirm_to(&mut self, now: u64, destination: Ipv6Addr, least: Duration) -> Result<bool, Error> {
        found(unsafe { raw::nd_confirm_to(self.slot.get(), now, &destination.octets(), to_milliseconds_up(least)) })
    }

    /// Removes a neighbour. It does not count as a failure: Redirects to it stay. Packets that waited for it are reported, oldest first, as
    /// [`Output::Lost`](crate::Output::Lost) with [`Loss::Forgotten`](crate::Loss::Forgotten).
    ///
    /// # Errors
    /// The errors of [every event](Node).
    ///
    /// ```
    /// # let mut node = nd::Node::open(nd::Options::host([2, 0, 0, 0, 0, 1], 0, nd::Draws::Seed(1)))?;
    /// # node.pass(2000)?;
    /// let neighbour = "fe80::2".parse().unwrap();
    /// node.resolve(2000, neighbour)?;
    /// assert!(node.neighbour(2000, neighbour)?.is_some());
    /// node.forget(2000, neighbour)?;
    /// assert_eq!(node.neighbour(2000, neighbour)?, None);
    /// # Ok::<(), nd::Error>(())
    /// ```
    pub fn forget(&mut self, now: u64, neighbour: Ipv6Addr) -> Result<(), Error> {
        done(unsafe { raw::nd_forget(self.slot.get(), now, &neighbour.octets()) })
    }

    /// Removes all rows of a table. A table that the role does not have is empty.
    ///
    /// # Errors
    /// The errors of [every event](Node).
    ///
    /// ```
    /// # let mut node = nd::Node::open(nd::Options::host([2, 0, 0, 0, 0, 1], 0, nd::Draws::Seed(1)))?;
    /// node.clear(2000, nd::Clearable::Neighbours)?;
    /// assert_eq!(node.counts(2000)?.neighbours, 0);
    /// # Ok::<(), nd::Error>(())
    /// ```
    pub fn clear(&mut self, now: u64, table: Clearable) -> Result<(), Error> {
        done(unsafe { raw::nd_clear(self.slot.get(), now, table as u32) })
    }

    /// Gives the node an address by hand, at a host or at a router: a static one, one of DHCPv6, a router's global one, or one that the caller chose.
    ///
    /// Duplicate detection is done for a new one (RFC 4862, 5.4): it is tentative, its first solicitation is due now, and
    /// [`Output::Assigned`](crate::Output::Assigned) or [`Output::Duplicate`](crate::Output::Duplicate) is reported. At the end of its valid lifetime
    /// [`Output::EndedAddress`](crate::Output::EndedAddress) is reported. An address that the node has already gets these lifetimes from now on, in
    /// whatever state it is, and no Router Advertisement renews it (RFC 4862, 5.5.3 e). A duplicate is not tried again by that: call
    /// [`remove_address`](Node::remove_address) first. The link-local address stays as it is.
    ///
    /// # Errors
    /// [`Error::Invalid`]: an address or a lifetime that [`OwnAddress`] does not allow. [`Error::Refused`] with
    /// [`Refusal::Disabled`](crate::Refusal::Disabled), [`Refusal::Tentative`](crate::Refusal::Tentative) (call again after the `Assigned` of the
    /// link-local address), or [`Refusal::Full`](crate::Refusal::Full). The errors of [every event](Node).
    ///
    /// ```
    /// use nd::{Draws, Node, Options, OwnAddress, State};
    ///
    /// let mut node = Node::open(Options::router([2, 0, 0, 0, 0, 1], 0, Draws::Seed(1)))?;
    /// node.pass(2000)?;
    /// node.add_address(2000, &OwnAddress::without_end("2001:db8::5".parse().unwrap()))?;
    /// assert_eq!(node.addresses(2000)?.next().unwrap().state, State::Tentative);
    /// # Ok::<(), nd::Error>(())
    /// ```
    pub fn add_address(&mut self, now: u64, own: &OwnAddress) -> Result<(), Error> {
        let own = own.to_raw()?;
        done(unsafe { raw::nd_add_address(self.slot.get(), now, &own) })
    }

    /// Ends an address of the node, in whatever state it is, given by hand or formed from a prefix. One that was formed forms again with the next
    /// Router Advertisement of its prefix. [`Output::EndedAddress`](crate::Output::EndedAddress) is reported if the node had it. The link-local
    /// address stays.
    ///
    /// # Errors
    /// The errors of [every event](Node).
    ///
    /// ```
    /// # use nd::OwnAddress;
    /// # let mut node = nd::Node::open(nd::Options::host([2, 0, 0, 0, 0, 1], 0, nd::Draws::Seed(1)))?;
    /// # node.pass(2000)?;
    /// let own = "2001:db8::5".parse().unwrap();
    /// node.add_address(2000, &OwnAddress::without_end(own))?;
    /// node.remove_address(2000, own)?;
    /// assert_eq!(node.counts(2000)?.addresses, 1);
    /// # Ok::<(), nd::Error>(())
    /// ```
    pub fn remove_address(&mut self, now: u64, address: Ipv6Addr) -> Result<(), Error> {
        done(unsafe { raw::nd_remove_address(self.slot.get(), now, &address.octets()) })
    }

    /// Returns where [`send`](Node::send) would send a packet for `destination` now, after what is due (RFC 4861, 5.2; 8.3 at a host; the longest
    /// static route at a router). `None`: there is no next hop. It uses no neighbour, and apart from what is due changes nothing.
    ///
    /// # Errors
    /// The errors of [every event](Node).
    ///
    /// ```
    /// # let mut node = nd::Node::open(nd::Options::host([2, 0, 0, 0, 0, 1], 0, nd::Draws::Seed(1)))?;
    /// assert_eq!(node.next_hop(2000, "fe80::2".parse().unwrap())?, Some(nd::Hop::Direct));
    /// assert_eq!(node.next_hop(2000, "2001:db8::1".parse().unwrap())?, None);
    /// # Ok::<(), nd::Error>(())
    /// ```
    pub fn next_hop(&mut self, now: u64, destination: Ipv6Addr) -> Result<Option<Hop>, Error> {
        let mut row = raw::nd_next_hop_row::default();
        let is_found = found(unsafe { raw::nd_next_hop(self.slot.get(), now, &destination.octets(), &mut row) })?;
        Ok(is_found.then(|| Hop::of_raw(row.hop, row.address)))
    }
}

/// Events and questions for a stack that keeps and sends its packets itself.
impl Node {
    /// Returns where packets to `destination` go, for a stack that keeps and sends its packets itself (RFC 4861, 5.2, 7.2.2 and 7.3.3; 8.3 at a host;
    /// the longest static route at a router). `None`: there is no next hop, as for the node's own addresses.
    ///
    /// It counts as a use of the next hop, as a packet of [`send`](Node::send) does: a STALE neighbour goes to DELAY, and one whose link-layer
    /// address is not known is solicited. Then [`Path::mac`] is `None`: keep the packets until [`Output::Resolved`](crate::Output::Resolved) or
    /// [`Output::Failed`](crate::Output::Failed) is reported of [`Path::next_hop`]. Ask again after `Resolved`. After `Failed` drop them, each with
    /// an ICMPv6 error of the caller's own (RFC 4861, 7.2.2). One of the two comes unless [`forget`](Node::forget) or [`clear`](Node::clear) removes
    /// the neighbour. To ask again before is no further use of the neighbour.
    ///
    /// The lease: packets to `destination` may be sent to [`Path::mac`] without a call as long as [`is_leased`](Node::is_leased). Such a packet
    /// leaves the node as it would be with a call. Once the lease is over, ask again.
    ///
    /// The caller writes the whole frame, and keeps to the MTU.
    ///
    /// # Errors
    /// [`Error::Refused`] with [`Refusal::Disabled`](crate::Refusal::Disabled), [`Refusal::Tentative`](crate::Refusal::Tentative) or
    /// [`Refusal::Full`](crate::Refusal::Full), which is not reported besides. Ask again after an [`Output::Assigned`](crate::Output::Assigned), or
    /// for the next packet. The errors of [every event](Node).
    ///
    /// ```
    /// # let mut node = nd::Node::open(nd::Options::host([2, 0, 0, 0, 0, 1], 0, nd::Draws::Seed(1)))?;
    /// # node.pass(2000)?;
    /// let path = node.resolve(2000, "ff02::fb".parse().unwrap())?.unwrap();
    /// assert_eq!(path.mac, Some([0x33, 0x33, 0, 0, 0, 0xfb]));
    /// let path = node.resolve(2000, "fe80::2".parse().unwrap())?.unwrap();
    /// assert_eq!(path.mac, None); // its link-layer address is asked for
    /// assert_eq!(node.resolve(2000, "2001:db8::1".parse().unwrap())?, None);
    /// # Ok::<(), nd::Error>(())
    /// ```
    pub fn resolve(&mut self, now: u64, destination: Ipv6Addr) -> Result<Option<Path>, Error> {
        let mut path = raw::nd_path::default();
        let status = unsafe { raw::nd_resolve(self.slot.get(), now, &destination.octets(), &mut path) };
        done(status)?;
        Ok((status != raw::ND_NOTHING).then(|| Path::of_raw(path)))
    }

    /// Returns the version of all leases. It never falls, and it grows with each call after which a lease may hold no longer.
    ///
    /// It does not grow with [`poll`](Node::poll), a question, [`resolve`](Node::resolve) in a lease, or a call that returns [`Error::Past`] or
    /// [`Error::Invalid`]; nor, where nothing is due but solicitations for neighbours, with [`pass`](Node::pass), [`next_hop`](Node::next_hop),
    /// [`receive`](Node::receive) of a frame that is dropped or whose packet is for the node, and [`confirm`](Node::confirm) and
    /// [`confirm_to`](Node::confirm_to), unless ReachableTime has become so short that the neighbour is REACHABLE for a shorter time.
    ///
    /// ```
    /// # let mut node = nd::Node::open(nd::Options::host([2, 0, 0, 0, 0, 1], 0, nd::Draws::Seed(1)))?;
    /// let version = node.lease_version();
    /// node.addresses(0)?;
    /// assert_eq!(node.lease_version(), version);
    /// # Ok::<(), nd::Error>(())
    /// ```
    pub fn lease_version(&self) -> u64 {
        unsafe { raw::nd_lease_version(self.slot.get()) }
    }

    /// Returns true if the lease of a path of this node holds at `now`: a packet may be sent to [`Path::mac`] without a call.
    ///
    /// ```no_run
    /// # fn transmit(mac: [u8; 6]) {}
    /// # fn example(node: &mut nd::Node, now: u64, destination: std::net::Ipv6Addr, path: &mut nd::Path) -> Result<(), nd::Error> {
    /// if !node.is_leased(now, path) {
    ///     *path = node.resolve(now, destination)?.ok_or(nd::Error::NoRoute)?;
    /// }
    /// if let Some(mac) = path.mac {
    ///     transmit(mac);
    /// }
    /// # Ok(())
    /// # }
    /// ```
    pub fn is_leased(&self, now: u64, path: &Path) -> bool {
        path.mac.is_some() && now < path.until && path.version == self.lease_version()
    }
}

/// Events at a router. At a host each is refused with [`Refusal::WrongRole`](crate::Refusal::WrongRole), if its arguments are good.
impl Node {
    /// Begins to advertise, or changes what is advertised (RFC 4861, 6.2.4). The first advertisement is due now, but not before the link-local
    /// address is assigned, nor within 3 s of the last one. While advertising, a change moves no date: it concerns contents and later intervals.
    ///
    /// # Errors
    /// [`Error::Invalid`]: a field that [`Advertising`] does not allow. The errors of [every event](Node).
    ///
    /// ```
    /// use nd::{Advertising, Draws, Node, Options, Output};
    ///
    /// let mut node = Node::open(Options::router([2, 0, 0, 0, 0, 1], 0, Draws::Seed(1)))?;
    /// node.advertise(2000, &Advertising::default())?;
    /// node.poll().for_each(drop);
    /// node.pass(2000)?;
    /// assert!(matches!(node.poll().next().unwrap().output, Output::Frame(frame) if frame[54] == 134));
    /// # Ok::<(), nd::Error>(())
    /// ```
    pub fn advertise(&mut self, now: u64, settings: &Advertising) -> Result<(), Error> {
        let settings = settings.to_raw()?;
        done(unsafe { raw::nd_advertise(self.slot.get(), now, &settings) })
    }

    /// Advertises a prefix, from the next advertisement on (RFC 4861, 6.2.1). An offer of the same prefix and length is replaced in its place. None
    /// can be removed: offer lifetimes of zero to withdraw a prefix (RFC 4861, 6.2.1; RFC 4862, 5.5.3).
    ///
    /// # Errors
    /// [`Error::Invalid`]: a field that [`Offer`] does not allow. [`Error::Refused`] with [`Refusal::Full`](crate::Refusal::Full): there are
    /// [`Limits::offers`](crate::Limits::offers) others. The errors of [every event](Node).
    ///
    /// ```
    /// # let mut node = nd::Node::open(nd::Options::router([2, 0, 0, 0, 0, 1], 0, nd::Draws::Seed(1)))?;
    /// let offer = nd::Offer::new("2001:db8::".parse().unwrap(), 64);
    /// node.advertise_prefix(2000, &offer)?;
    /// assert_eq!(node.offers(2000)?.next(), Some(offer));
    /// # Ok::<(), nd::Error>(())
    /// ```
    pub fn advertise_prefix(&mut self, now: u64, offer: &Offer) -> Result<(), Error> {
        let offer = offer.to_raw()?;
        done(unsafe { raw::nd_advertise_prefix(self.slot.get(), now, &offer) })
    }

    /// Puts a static route (RFC 4861, 5.2). A route of the same prefix and length is replaced in its place. None can be removed. Packets to
    /// `fe80::/64` and to multicast addresses need no route.
    ///
    /// # Errors
    /// [`Error::Invalid`]: the prefix is longer than 128 bits. [`Error::Refused`] with [`Refusal::Full`](crate::Refusal::Full): there are
    /// [`Limits::routes`](crate::Limits::routes) others. The errors of [every event](Node).
    ///
    /// ```
    /// use nd::{Hop, Route};
    ///
    /// # let mut node = nd::Node::open(nd::Options::router([2, 0, 0, 0, 0, 1], 0, nd::Draws::Seed(1)))?;
    /// let through = Hop::Via("fe80::2".parse().unwrap());
    /// node.add_route(2000, &Route { prefix: "2001:db8:1::".parse().unwrap(), bits: 48, hop: through })?;
    /// assert_eq!(node.next_hop(2000, "2001:db8:1::7".parse().unwrap())?, Some(through));
    /// # Ok::<(), nd::Error>(())
    /// ```
    pub fn add_route(&mut self, now: u64, route: &Route) -> Result<(), Error> {
        let route = route.to_raw();
        done(unsafe { raw::nd_add_route(self.slot.get(), now, &route) })
    }

    /// Ends advertising (RFC 4861, 6.2.5). If an advertisement was sent since it began, a last one with a router lifetime of 0 is reported.
    ///
    /// # Errors
    /// The errors of [every event](Node).
    ///
    /// ```
    /// # let mut node = nd::Node::open(nd::Options::router([2, 0, 0, 0, 0, 1], 0, nd::Draws::Seed(1)))?;
    /// node.advertise(2000, &nd::Advertising::default())?;
    /// node.stop_advertising(3000)?;
    /// assert_eq!(node.advertising(3000)?, None);
    /// # Ok::<(), nd::Error>(())
    /// ```
    pub fn stop_advertising(&mut self, now: u64) -> Result<(), Error> {
        done(unsafe { raw::nd_stop_advertising(self.slot.get(), now) })
    }
}

/// What a node reports.
impl Node {
    /// Takes the reports, the oldest first, until there is none. Take them after each call: they take memory, and frames that are sent late break the
    /// RFCs' timing.
    ///
    /// ```
    /// # fn transmit(frame: &[u8]) {}
    /// # let mut node = nd::Node::open(nd::Options::host([2, 0, 0, 0, 0, 1], 0, nd::Draws::Seed(1)))?;
    /// # node.pass(2000)?;
    /// for report in node.poll() {
    ///     match report.output {
    ///         nd::Output::Frame(frame) => transmit(&frame),
    ///         other => println!("{} {other:?}", report.moment),
    ///     }
    /// }
    /// assert_eq!(node.poll().next(), None);
    /// # Ok::<(), nd::Error>(())
    /// ```
    pub fn poll(&mut self) -> Reports<'_> {
        Reports { node: self }
    }

    /// Takes the oldest report, with its bytes at the beginning of `buffer`, and without memory of its own. `None`: there is none. A buffer of
    /// [`BUFFER_BYTES`](crate::BUFFER_BYTES), and of no fewer bytes than the longest frame that is passed to [`receive`](Node::receive), is enough.
    ///
    /// # Errors
    /// [`Error::NoRoom`]: the report has more bytes than the buffer. It stays the oldest.
    ///
    /// ```
    /// # fn transmit(frame: &[u8]) {}
    /// # let mut node = nd::Node::open(nd::Options::host([2, 0, 0, 0, 0, 1], 0, nd::Draws::Seed(1)))?;
    /// # node.pass(2000)?;
    /// let mut buffer = [0; nd::BUFFER_BYTES];
    /// while let Some(report) = node.poll_into(&mut buffer)? {
    ///     if let nd::Output::Frame(frame) = report.output {
    ///         transmit(frame);
    ///     }
    /// }
    /// # Ok::<(), nd::Error>(())
    /// ```
    pub fn poll_into<'a>(&mut self, buffer: &'a mut [u8]) -> Result<Option<Report<&'a [u8]>>, Error> {
        let mut out = raw::nd_out::default();
        let is_taken = match unsafe { raw::nd_poll(self.slot.get(), &mut out, buffer.as_mut_ptr(), buffer.len()) } {
            raw::ND_NO_ROOM => return Err(Error::NoRoom(out.length)),
            status => found(status)?,
        };
        Ok(is_taken.then(|| report_of(&out, &buffer[..out.length])))
    }
}

/// What a node knows.
impl Node {
    /// Returns the neighbours, in the order of their addresses (RFC 4861, 5.1).
    ///
    /// # Errors
    /// The errors of [every question](Node).
    ///
    /// ```
    /// # let mut node = nd::Node::open(nd::Options::host([2, 0, 0, 0, 0, 1], 0, nd::Draws::Seed(1)))?;
    /// # node.pass(2000)?;
    /// node.resolve(2000, "fe80::2".parse().unwrap())?;
    /// let neighbour = node.neighbours(2000)?.next().unwrap();
    /// assert_eq!((neighbour.mac, neighbour.state), (None, nd::Reachability::Incomplete));
    /// # Ok::<(), nd::Error>(())
    /// ```
    pub fn neighbours(&self, now: u64) -> Result<Rows<Neighbour>, Error> {
        self.rows(raw::nd_neighbours, now, Neighbour::of_raw)
    }

    /// Returns the neighbour of an address (RFC 4861, 5.1).
    ///
    /// # Errors
    /// The errors of [every question](Node).
    ///
    /// ```
    /// # let node = nd::Node::open(nd::Options::host([2, 0, 0, 0, 0, 1], 0, nd::Draws::Seed(1)))?;
    /// assert_eq!(node.neighbour(0, "fe80::2".parse().unwrap())?, None);
    /// # Ok::<(), nd::Error>(())
    /// ```
    pub fn neighbour(&self, now: u64, address: Ipv6Addr) -> Result<Option<Neighbour>, Error> {
        let mut row = raw::nd_neighbour_row::default();
        let is_there = found(unsafe { raw::nd_neighbour_of(self.slot.get(), now, &address.octets(), &mut row) })?;
        Ok(is_there.then(|| Neighbour::of_raw(row)))
    }

    /// Returns the default routers, in the order in which they entered the list (RFC 4861, 5.1). Which one is used for a destination is
    /// [`next_hop`](Node::next_hop)'s answer, not the first row.
    ///
    /// # Errors
    /// The errors of [every question](Node).
    ///
    /// ```
    /// # let node = nd::Node::open(nd::Options::host([2, 0, 0, 0, 0, 1], 0, nd::Draws::Seed(1)))?;
    /// let has_router = node.routers(0)?.next().is_some();
    /// assert!(!has_router);
    /// # Ok::<(), nd::Error>(())
    /// ```
    pub fn routers(&self, now: u64) -> Result<Rows<Router>, Error> {
        self.rows(raw::nd_routers, now, Router::of_raw)
    }

    /// Returns the prefixes on the link, in the order in which they entered the table (RFC 4861, 5.1). `fe80::/64` is not shown.
    ///
    /// # Errors
    /// The errors of [every question](Node).
    ///
    /// ```
    /// # let node = nd::Node::open(nd::Options::host([2, 0, 0, 0, 0, 1], 0, nd::Draws::Seed(1)))?;
    /// assert_eq!(node.prefixes(0)?.count(), 0);
    /// # Ok::<(), nd::Error>(())
    /// ```
    pub fn prefixes(&self, now: u64) -> Result<Rows<Prefix>, Error> {
        self.rows(raw::nd_prefixes, now, Prefix::of_raw)
    }

    /// Returns the node's own addresses, the link-local one too, in the order of addresses (RFC 4862, 5.3, 5.4 and 5.5.3).
    ///
    /// # Errors
    /// The errors of [every question](Node).
    ///
    /// ```
    /// # let mut node = nd::Node::open(nd::Options::host([2, 0, 0, 0, 0, 1], 0, nd::Draws::Seed(1)))?;
    /// node.pass(2000)?;
    /// let usable = node.addresses(2000)?.find(|own| own.state == nd::State::Preferred);
    /// assert_eq!(usable.unwrap().address, "fe80::ff:fe00:1".parse::<std::net::Ipv6Addr>().unwrap());
    /// # Ok::<(), nd::Error>(())
    /// ```
    pub fn addresses(&self, now: u64) -> Result<Rows<Address>, Error> {
        self.rows(raw::nd_addresses, now, Address::of_raw)
    }

    /// Returns the DNS servers, in the order in which they entered the table (RFC 8106, 5.1 and 6.1). Ask again after each
    /// [`Output::Heard`](crate::Output::Heard) of a Router Advertisement, and when the shortest [`Server::left`] has passed.
    ///
    /// # Errors
    /// The errors of [every question](Node).
    ///
    /// ```
    /// # let node = nd::Node::open(nd::Options::host([2, 0, 0, 0, 0, 1], 0, nd::Draws::Seed(1)))?;
    /// assert_eq!(node.servers(0)?.count(), 0);
    /// # Ok::<(), nd::Error>(())
    /// ```
    pub fn servers(&self, now: u64) -> Result<Rows<Server>, Error> {
        self.rows(raw::nd_servers, now, Server::of_raw)
    }

    /// Returns the DNS search names, in the order in which they entered the table (RFC 8106, 5.2 and 6.1). Ask again after each
    /// [`Output::Heard`](crate::Output::Heard) of a Router Advertisement, and when the shortest [`Name::left`] has passed.
    ///
    /// # Errors
    /// The errors of [every question](Node).
    ///
    /// ```
    /// # let node = nd::Node::open(nd::Options::host([2, 0, 0, 0, 0, 1], 0, nd::Draws::Seed(1)))?;
    /// assert_eq!(node.names(0)?.count(), 0);
    /// # Ok::<(), nd::Error>(())
    /// ```
    pub fn names(&self, now: u64) -> Result<Rows<Name>, Error> {
        self.rows(raw::nd_names, now, Name::of_raw)
    }

    /// Returns the Redirects in force, the newest first (RFC 4861, 8.3).
    ///
    /// # Errors
    /// The errors of [every question](Node).
    ///
    /// ```
    /// # let node = nd::Node::open(nd::Options::host([2, 0, 0, 0, 0, 1], 0, nd::Draws::Seed(1)))?;
    /// assert_eq!(node.redirects(0)?.count(), 0);
    /// # Ok::<(), nd::Error>(())
    /// ```
    pub fn redirects(&self, now: u64) -> Result<Rows<Redirect>, Error> {
        self.rows(raw::nd_redirects, now, Redirect::of_raw)
    }

    /// Returns the parameters of the link (RFC 4861, 6.3.2). A router keeps the defaults.
    ///
    /// # Errors
    /// The errors of [every question](Node).
    ///
    /// ```
    /// # let node = nd::Node::open(nd::Options::host([2, 0, 0, 0, 0, 1], 0, nd::Draws::Seed(1)))?;
    /// assert_eq!(node.parameters(0)?.mtu, 1500);
    /// # Ok::<(), nd::Error>(())
    /// ```
    pub fn parameters(&self, now: u64) -> Result<Parameters, Error> {
        let mut row = raw::nd_parameters_row::default();
        done(unsafe { raw::nd_parameters_of(self.slot.get(), now, &mut row) })?;
        Ok(Parameters::of_raw(row))
    }

    /// Returns how many entries the tables have, and the limits that the node was opened with, the usual numbers in place of 0.
    ///
    /// # Errors
    /// The errors of [every question](Node).
    ///
    /// ```
    /// # let node = nd::Node::open(nd::Options::host([2, 0, 0, 0, 0, 1], 0, nd::Draws::Seed(1)))?;
    /// let counts = node.counts(0)?;
    /// assert_eq!((counts.neighbours, counts.limits.neighbours), (0, 512));
    /// # Ok::<(), nd::Error>(())
    /// ```
    pub fn counts(&self, now: u64) -> Result<Counts, Error> {
        let mut row = raw::nd_counts_row::default();
        done(unsafe { raw::nd_counts_of(self.slot.get(), now, &mut row) })?;
        Ok(Counts::of_raw(row))
    }

    /// Returns the offers of a router, in the order in which each was first put. A host has none.
    ///
    /// # Errors
    /// The errors of [every question](Node).
    ///
    /// ```
    /// # let mut node = nd::Node::open(nd::Options::router([2, 0, 0, 0, 0, 1], 0, nd::Draws::Seed(1)))?;
    /// node.advertise_prefix(0, &nd::Offer::new("2001:db8::".parse().unwrap(), 64))?;
    /// assert_eq!(node.offers(0)?.next().unwrap().bits, 64);
    /// # Ok::<(), nd::Error>(())
    /// ```
    pub fn offers(&self, now: u64) -> Result<Rows<Offer>, Error> {
        self.rows(raw::nd_offers, now, Offer::of_raw)
    }

    /// Returns the static routes of a router, in the order in which each was first put. A host has none.
    ///
    /// # Errors
    /// The errors of [every question](Node).
    ///
    /// ```
    /// # let mut node = nd::Node::open(nd::Options::router([2, 0, 0, 0, 0, 1], 0, nd::Draws::Seed(1)))?;
    /// let route = nd::Route { prefix: "2001:db8::".parse().unwrap(), bits: 64, hop: nd::Hop::Direct };
    /// node.add_route(0, &route)?;
    /// assert_eq!(node.routes(0)?.next(), Some(route));
    /// # Ok::<(), nd::Error>(())
    /// ```
    pub fn routes(&self, now: u64) -> Result<Rows<Route>, Error> {
        self.rows(raw::nd_routes, now, Route::of_raw)
    }

    /// Returns what a router advertises. `None` where it does not advertise, and at a host.
    ///
    /// # Errors
    /// The errors of [every question](Node).
    ///
    /// ```
    /// # let mut node = nd::Node::open(nd::Options::router([2, 0, 0, 0, 0, 1], 0, nd::Draws::Seed(1)))?;
    /// let settings = nd::Advertising::default();
    /// node.advertise(0, &settings)?;
    /// assert_eq!(node.advertising(0)?, Some(settings));
    /// # Ok::<(), nd::Error>(())
    /// ```
    pub fn advertising(&self, now: u64) -> Result<Option<Advertising>, Error> {
        let mut row = raw::nd_advertising::default();
        let is_there = found(unsafe { raw::nd_advertising_of(self.slot.get(), now, &mut row) })?;
        Ok(is_there.then(|| Advertising::of_raw(row)))
    }

    /// Returns the rows of a table at `now`, which is not before the last moment.
    fn rows<Raw: Clone + Default, Row>(&self, ask: Ask<Raw>, now: u64, of_raw: fn(Raw) -> Row) -> Result<Rows<Row>, Error> {
        let mut rows = vec![Raw::default(); ROOM];
        loop {
            let mut count = 0;
            match unsafe { ask(self.slot.get(), now, rows.as_mut_ptr(), rows.len(), &mut count) } {
                raw::ND_DONE => {
                    rows.truncate(count);
                    return Ok(Rows::new(rows.into_iter().map(of_raw).collect()));
                }
                raw::ND_NO_ROOM => rows.resize(8 * rows.len(), Raw::default()),
                status => return Err(Error::of_status(status)),
            }
        }
    }
}

/// A question for all rows of a table.
type Ask<Raw> = unsafe extern "C" fn(*mut raw::nd_node, u64, *mut Raw, usize, *mut usize) -> i32;

/// For how many rows there is room at first.
const ROOM: usize = 64;

/// Takes the reports of a node, the oldest first.
///
/// ```
/// # let mut node = nd::Node::open(nd::Options::host([2, 0, 0, 0, 0, 1], 0, nd::Draws::Seed(1)))?;
/// node.pass(2000)?;
/// let frames = node.poll().filter(|report| matches!(report.output, nd::Output::Frame(_)));
/// assert_eq!(frames.count(), 2); // for duplicate detection, and for routers
/// # Ok::<(), nd::Error>(())
/// ```
#[derive(Debug)]
#[must_use = "the reports are taken where they are iterated over"]
pub struct Reports<'a> {
    node: &'a mut Node,
}

impl Iterator for Reports<'_> {
    type Item = Report;

    fn next(&mut self) -> Option<Report> {
        let mut out = raw::nd_out::default();
        let mut bytes = Vec::new();
        let slot = self.node.slot.get();
        let mut status = unsafe { raw::nd_poll(slot, &mut out, bytes.as_mut_ptr(), 0) };
        if status == raw::ND_NO_ROOM {
            bytes.resize(out.length, 0);
            status = unsafe { raw::nd_poll(slot, &mut out, bytes.as_mut_ptr(), bytes.len()) };
        }
        (status == raw::ND_DONE).then(|| report_of(&out, bytes))
    }
}

impl FusedIterator for Reports<'_> {}
