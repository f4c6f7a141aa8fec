//! host MAC DRAWS < frames: as `examples/c/host.c`, over the crate `nd`. It reads lines "MOMENT HEX", a moment in milliseconds and a frame that is
//! received then; without a frame time passes. DRAWS is seed:N or word:N.

use nd::{Draws, Node, Options, Output};
use std::time::Duration;

/// An idle host takes seconds to this moment, and days to the greatest one (`nd.h`, TIME).
const LATEST: u64 = 1 << 46;

fn bytes(digits: &str) -> Vec<u8> {
    let pairs = digits.as_bytes().chunks_exact(2);
    pairs.map_while(|pair| u8::from_str_radix(std::str::from_utf8(pair).ok()?, 16).ok()).collect()
}

fn hex(bytes: &[u8]) -> String {
    bytes.iter().map(|byte| format!("{byte:02x}")).collect()
}

/// Returns what happened in the words of `ndpctl run`, but numbers of `nd.h` for words that follow.
fn text(output: Output) -> String {
    match output {
        Output::Frame(frame) => format!("tx {}", hex(&frame)),
        Output::Heard { message_type, .. } => format!("heard {}", u32::from(message_type)),
        Output::Dropped(why) => format!("drop {}", u32::from(why)),
        Output::Up(packet) => format!("up {}", hex(&packet)),
        Output::Duplicate(address) => format!("duplicate {address}"),
        Output::Assigned(address) => format!("assigned {address}"),
        Output::EndedAddress(address) => format!("ended address {address}"),
        Output::EndedRouter(address) => format!("ended router {address}"),
        Output::Failed(address) => format!("failed {address}"),
        Output::Lost(loss, _) => format!("lost {}", u32::from(loss)),
        Output::Refused { refusal, .. } => format!("refused {}", u32::from(refusal)),
        _ => "of a later version".into(),
    }
}

/// Returns what is left of a lifetime in milliseconds, as `nd.h` has it.
fn milliseconds(left: Option<Duration>) -> u128 {
    left.map_or(u64::MAX.into(), |left| left.as_millis())
}

fn options(mac: &str, draws: &str) -> Option<Options> {
    let mac = mac.split(':').map_while(|digits| u8::from_str_radix(digits, 16).ok()).collect::<Vec<u8>>();
    let draws = match draws.split_once(':')? {
        ("word", word) => Draws::Word(word.parse().ok()?),
        (_, seed) => Draws::Seed(seed.parse().ok()?),
    };
    Some(Options::host(mac.try_into().ok()?, 0, draws))
}

fn main() -> Result<(), Box<dyn std::error::Error>> {
    let words: Vec<String> = std::env::args().collect();
    let [_, mac, draws] = &words[..] else { return Err("usage: host MAC DRAWS < frames".into()) };
    let mut node = Node::open(options(mac, draws).ok_or("a MAC or a source of draws that is none")?)?;
    for (number, line) in (1..).zip(std::io::stdin().lines().map_while(Result::ok)) {
        let (moment, frame) = line.split_once(' ').unwrap_or((&line, ""));
        let Some(now) = moment.parse().ok().filter(|now| *now <= LATEST) else {
            eprintln!("host: line {number} has no moment up to 2^46");
            continue;
        };
        let frame = bytes(frame);
        let event = if frame.is_empty() { node.pass(now) } else { node.receive(now, &frame) };
        if let Err(error) = event {
            eprintln!("host: no event at {now}: {error}");
        }
        node.poll().for_each(|report| println!("{} {}", report.moment, text(report.output)));
    }
    let now = node.last_moment();
    for own in node.addresses(now)? {
        println!("address {} {} {} {}", own.address, u32::from(own.state), milliseconds(own.preferred_left), milliseconds(own.valid_left));
    }
    for router in node.routers(now)? {
        println!("router {} {} {}", router.address, router.left.as_millis(), u32::from(router.preference));
    }
    Ok(())
}
