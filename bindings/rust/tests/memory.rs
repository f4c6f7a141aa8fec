//! Memory is refused to a node, and given back by it. The program's allocator counts what is held, and refuses what a test asks it to refuse.
#![cfg(feature = "memory")]

use nd::*;
use std::alloc::{GlobalAlloc, Layout, System};
use std::cell::Cell;

thread_local! {
    /// How many more requests are granted; `None`: all.
    static GRANTED: Cell<Option<usize>> = const { Cell::new(None) };
    /// How many bytes are held.
    static HELD: Cell<isize> = const { Cell::new(0) };
}

/// Returns true if a request is granted.
fn is_granted() -> bool {
    match GRANTED.get() {
        Some(0) => false,
        Some(granted) => {
            GRANTED.set(Some(granted - 1));
            true
        }
        None => true,
    }
}

struct Scarce;

#[global_allocator]
static SCARCE: Scarce = Scarce;

unsafe impl GlobalAlloc for Scarce {
    unsafe fn alloc(&self, layout: Layout) -> *mut u8 {
        if !is_granted() {
            return std::ptr::null_mut();
        }
        HELD.set(HELD.get() + layout.size() as isize);
        unsafe { System.alloc(layout) }
    }

    unsafe fn dealloc(&self, at: *mut u8, layout: Layout) {
        HELD.set(HELD.get() - layout.size() as isize);
        unsafe { System.dealloc(at, layout) }
    }

    unsafe fn realloc(&self, at: *mut u8, layout: Layout, size: usize) -> *mut u8 {
        if !is_granted() {
            return std::ptr::null_mut();
        }
        HELD.set(HELD.get() + size as isize - layout.size() as isize);
        unsafe { System.realloc(at, layout, size) }
    }
}

/// Makes a call to which so many requests are granted.
fn with<T>(granted: Option<usize>, call: impl FnOnce() -> T) -> T {
    GRANTED.set(granted);
    let result = call();
    GRANTED.set(None);
    result
}

fn options() -> Options {
    Options::host([0x34, 0x56, 0x78, 0x9a, 0xbc, 0xde], 0, Draws::Word(0))
}

/// Returns the frames of the example, each with its moment. Where a frame is empty time passes.
fn example() -> Vec<(u64, Vec<u8>)> {
    let bytes = |digits: &str| (0..digits.len() / 2).map(|i| u8::from_str_radix(&digits[2 * i..2 * i + 2], 16).unwrap()).collect();
    let lines = include_str!("../../../examples/host.hex").lines();
    lines.map(|line| line.split_once(' ').unwrap_or((line, ""))).map(|(moment, digits)| (moment.parse().unwrap(), bytes(digits))).collect()
}

#[test]
fn a_node_that_is_not_opened_out_of_memory_holds_none() {
    let held = HELD.get();
    for granted in 0..1000 {
        match with(Some(granted), || Node::open(options())) {
            Err(error) => assert_eq!(error, Error::NoMemory),
            Ok(node) => {
                assert!(granted > 0 && HELD.get() > held);
                drop(node);
                assert_eq!(HELD.get(), held);
                return;
            }
        }
        assert_eq!(HELD.get(), held);
    }
    panic!("it was not opened");
}

/// What a host reports of the example, and what it knows then.
#[derive(Debug, PartialEq)]
struct Story {
    reports: Vec<Report>,
    addresses: Vec<Address>,
    neighbours: Vec<Neighbour>,
    routers: Vec<Router>,
}

/// Tells the story of a host. If memory is scarce, each call is made with one more request granted, until it isn't refused; returns how often it was.
fn story(is_scarce: bool) -> (Story, usize) {
    let (mut node, mut reports, mut refused) = (Node::open(options()).unwrap(), Vec::new(), 0);
    for (moment, frame) in example() {
        let mut granted = if is_scarce { Some(0) } else { None };
        while let Err(error) = with(granted, || if frame.is_empty() { node.pass(moment) } else { node.receive(moment, &frame) }) {
            assert_eq!(error, Error::NoMemory);
            reports.extend(node.poll());
            (granted, refused) = (granted.map(|granted| granted + 1), refused + 1);
            assert!(refused < 10_000);
        }
        reports.extend(node.poll());
    }
    let now = node.last_moment();
    let addresses = node.addresses(now).unwrap().collect();
    let (neighbours, routers) = (node.neighbours(now).unwrap().collect(), node.routers(now).unwrap().collect());
    (Story { reports, addresses, neighbours, routers }, refused)
}

#[test]
fn a_call_that_is_refused_memory_is_made_again() {
    let held = HELD.get();
    {
        let ((usual, never), (scarce, often)) = (story(false), story(true));
        assert_eq!(usual, scarce);
        assert!(never == 0 && often > 0);
        assert_eq!((usual.addresses.len(), usual.routers.len()), (2, 2));
    }
    assert_eq!(HELD.get(), held);
}
