//! IPv6 Neighbor Discovery for one Ethernet interface, as a host or as a router (RFC 4861; RFC 4862, section 5; RFC 8106; RFC 4191 without its route
//! option), over a proved node in C, which the crate carries. It has no dependencies; the build needs a C compiler.
//!
//! A [`Node`] keeps the tables of Neighbor Discovery, decides what is sent and when, and says why a frame was dropped. It has no clock, no socket, no
//! thread and no callback. The program passes frames and moments in, and takes reports out: frames to send, packets for the upper layer, and what
//! happened. [`hear`] says what a frame is, without a node.
//!
//! ```no_run
//! use nd::{Draws, Error, Node, Options, Output};
//! use std::time::Duration;
//!
//! # fn clock_ms() -> u64 { 0 }
//! # fn random_u64() -> u64 { 1 }
//! # fn transmit(frame: &[u8]) {}
//! # fn deliver(packet: &[u8]) {}
//! # fn wait_for_frame(longest: Duration) -> Option<Vec<u8>> { None }
//! # fn example() -> Result<(), Error> {
//! let mac = [0x34, 0x56, 0x78, 0x9a, 0xbc, 0xde];
//! let mut node = Node::open(Options::host(mac, clock_ms(), Draws::Seed(random_u64())))?;
//! loop {
//!     for report in node.poll() {
//!         match report.output {
//!             Output::Frame(frame) => transmit(&frame),
//!             Output::Up(packet) => deliver(&packet),
//!             other => println!("{} {other:?}", report.moment),
//!         }
//!     }
//!     let wait = Duration::from_millis(node.next_due().saturating_sub(clock_ms()));
//!     let event = match wait_for_frame(wait) {
//!         Some(frame) => node.receive(clock_ms(), &frame),
//!         None => node.pass(clock_ms()),
//!     };
//!     match event {
//!         Ok(()) => {}
//!         Err(Error::Refused(refusal)) => eprintln!("refused: {refusal}"),
//!         Err(Error::NoMemory) => {} // the frame is as if the link had lost it
//!         Err(error) => return Err(error),
//!     }
//! }
//! # }
//! ```
//!
//! # Time
//!
//! A moment is a number of milliseconds from a beginning of the caller's choice, a `u64` below [`MOMENT_LIMIT`]. Moments of one node never decrease.
//! Use a clock that is never set back, not the time of day. A length of time is a [`Duration`](std::time::Duration). Lengths that a node returns are
//! whole milliseconds or whole seconds. One that a node is passed is a whole number of its unit, else [`Error::Invalid`] is returned; only `least` of
//! [`Node::confirm_to`] is rounded up. `None` stands for a lifetime without an end, and for a field of an advertisement that is unspecified.
//!
//! A call with a moment `now` first does all that is due up to `now`, in the order of its moments, and reports it with the moment at which it was
//! due. A jump costs what is due in it: a caller that passes nanoseconds seems to hang.
//!
//! # Frames
//!
//! Frames are passed from the Ethernet destination on, without a VLAN tag and without a frame check sequence. The node does not look at Ethernet
//! addresses, but for [`Policies::unicast`]. The caller passes frames to the interface's own address and to multicast addresses, and no others, and
//! never one that the interface itself sent (RFC 4862, 5.4.3). To a router it passes a frame to a multicast address only if that carries ICMPv6 of
//! types 133 to 137. The ICMPv6 checksum is in the bytes. The interface has to receive 33:33:00:00:00:01, a router also 33:33:00:00:00:02, and for
//! each address of [`Node::addresses`] 33:33:ff and its last three bytes (RFC 2464, 7), before detection begins (RFC 4862, 5.4.2); or all multicast.
//!
//! # Threads
//!
//! A [`Node`] may go from thread to thread, and different threads may use different nodes and [`hear`] at the same time. No call waits for another.
//!
//! # Memory
//!
//! With the feature `memory`, the default, the crate defines the library's memory functions `nd_alloc`, `nd_realloc` and `nd_free` over
//! [`std::alloc`]. Without it the program defines them, as `nd.h` says. A call that is refused memory returns [`Error::NoMemory`].
//!
//! # Building
//!
//! The build compiles the node, `c/nd.c`, by the compiler of `CC`, else by `cc`, with `-O2` and the flags of `CFLAGS`, and archives it by `AR` or
//! `ar`. For a target that is not the machine itself `CC_target` and `AR_target` name these tools, where `target` is cargo's name with `_` for `-`. If
//! `ND_LIB` names a folder, its `libnd_c.a` is linked instead, such as the one that `make -C bindings archive` makes. With the feature `memory` it must
//! not define the memory functions itself.
//!
//! # Versions
//!
//! Types to which a later minor version of the library may add are `#[non_exhaustive]`. A number that this version does not know is a value `Other`.
//! `nd.h` says more of each call, and what is proved of the library.
#![deny(unsafe_op_in_unsafe_fn)]
#![warn(missing_docs)]

mod error;
mod header;
mod hear;
#[cfg(feature = "memory")]
mod memory;
mod node;
mod numbers;
mod options;
mod output;
mod raw;
mod router;
mod rows;
mod time;

pub use error::{Error, Refusal};
pub use header::Header;
pub use hear::{hear, Heard, Hearing, Message, Packet, RouterAdvertisement};
pub use node::{Node, Reports};
pub use numbers::{Clearable, Limit, Loss, MessageType, Preference, Reachability, State, Why};
pub use options::{Draws, Limits, Options, Policies, Role};
pub use output::{Changes, Output, Report};
pub use router::{Advertising, Offer, Route};
pub use rows::{Address, Counts, Hop, Name, Neighbour, OwnAddress, Parameters, Path, Prefix, Redirect, Router, Rows, Server};

/// Moments are below it.
///
/// ```
/// # let mut node = nd::Node::open(nd::Options::host([2, 0, 0, 0, 0, 1], 0, nd::Draws::Seed(1)))?;
/// assert_eq!(node.pass(nd::MOMENT_LIMIT), Err(nd::Error::Invalid));
/// # Ok::<(), nd::Error>(())
/// ```
pub const MOMENT_LIMIT: u64 = raw::ND_MOMENT_LIMIT;

/// How many bytes [`Node::poll_into`] needs on a link with an MTU of 1,500, if no longer frame is passed to [`Node::receive`].
///
/// ```
/// let buffer = [0; nd::BUFFER_BYTES];
/// ```
pub const BUFFER_BYTES: usize = raw::ND_BUFFER_BYTES;

/// Returns the version of the library that is linked: major, minor and patch.
///
/// ```
/// let (major, minor, _) = nd::version();
/// assert!(major == 0 && minor >= 1);
/// ```
pub fn version() -> (u32, u32, u32) {
    let version = unsafe { raw::nd_version() };
    (version >> 16, version >> 8 & 0xff, version & 0xff)
}

/// Returns how many bytes the tables of an open node take at most with these limits, or `None` if a limit is out of its range. Not counted are what
/// the memory functions add to a block, the reports that were not taken, the packets that wait, and the frames of the call that runs.
///
/// ```
/// let mut limits = nd::Limits::default();
/// limits.neighbours = 8;
/// assert!(nd::node_bytes(&limits) < nd::node_bytes(&nd::Limits::default()));
/// limits.neighbours = 2049;
/// assert_eq!(nd::node_bytes(&limits), None);
/// ```
pub fn node_bytes(limits: &Limits) -> Option<usize> {
    let bytes = unsafe { raw::nd_node_bytes(&limits.to_raw()) };
    (bytes > 0).then_some(bytes)
}

/// Returns how many bytes a pool of `bindings/c/pool.c` needs for one node with these limits, so that no call returns [`Error::NoMemory`]: if all
/// reports are taken after each call, no frame that is received is longer than `longest` bytes, no payload of [`Node::send`] than `longest` - 54, and
/// no call's moment passes what is due by more than a millisecond. `None` if a limit is out of its range. It is measured and tested, not proved.
///
/// ```
/// let limits = nd::Limits::default();
/// assert!(nd::pool_bytes(&limits, 1514) > nd::node_bytes(&limits));
/// ```
pub fn pool_bytes(limits: &Limits, longest: usize) -> Option<usize> {
    let bytes = unsafe { raw::nd_pool_bytes(&limits.to_raw(), longest) };
    (bytes > 0).then_some(bytes)
}
