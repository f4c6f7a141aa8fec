//! Nodes in several threads at a time.

use nd::*;
use std::thread;

const THREADS: usize = 4;
const ROUNDS: usize = 200;

/// What a host reports of the frames of a link, what they are without a node, and what the host knows then.
#[derive(Clone, Debug, PartialEq)]
struct Story {
    reports: Vec<Report>,
    kinds: Vec<Option<MessageType>>,
    neighbours: Vec<Neighbour>,
    addresses: Vec<Address>,
}

/// Returns the frames of `examples/link.hex`.
fn frames() -> Vec<Vec<u8>> {
    let bytes = |line: &str| (0..line.len() / 2).map(|i| u8::from_str_radix(&line[2 * i..2 * i + 2], 16).unwrap()).collect();
    include_str!("../../../examples/link.hex").lines().map(bytes).collect()
}

/// Returns the type of a valid message.
fn kind(frame: &[u8]) -> Option<MessageType> {
    match hear(frame, Role::Host) {
        Hearing::Valid(heard) => Some(heard.message.message_type()),
        _ => None,
    }
}

/// Opens a host, lets it receive the frames, a second after one another, and closes it.
fn story(frames: &[Vec<u8>]) -> Story {
    let mut options = Options::host([0x34, 0x56, 0x78, 0x9a, 0xbc, 0xde], 0, Draws::Word(0));
    (options.limits.neighbours, options.limits.destinations, options.limits.names) = (16, 8, 4);
    let mut node = Node::open(options).unwrap();
    let (mut reports, mut kinds) = (Vec::new(), Vec::new());
    for (now, frame) in (2000..).step_by(1000).zip(frames) {
        node.receive(now, frame).unwrap();
        reports.extend(node.poll());
        kinds.push(kind(frame));
    }
    let now = node.last_moment();
    let (neighbours, addresses) = (node.neighbours(now).unwrap().collect(), node.addresses(now).unwrap().collect());
    Story { reports, kinds, neighbours, addresses }
}

#[test]
fn a_node_in_each_of_four_threads_does_what_one_does_alone() {
    let frames = frames();
    let alone = story(&frames);
    assert!(alone.reports.len() > frames.len() && alone.addresses.len() > 1 && !alone.neighbours.is_empty());
    thread::scope(|scope| {
        for _ in 0..THREADS {
            scope.spawn(|| (0..ROUNDS).for_each(|_| assert_eq!(story(&frames), alone)));
        }
    });
}
