//! A node through the safe interface. The frames and texts of the host are those of `examples/`, which were not written by this library.

use nd::*;
use std::net::Ipv6Addr;
use std::time::Duration;

const MAC: [u8; 6] = [0x34, 0x56, 0x78, 0x9a, 0xbc, 0xde];
const ROUTER_MAC: [u8; 6] = [2, 0, 0, 0, 0, 1];

/// A Router Advertisement with a Retrans Timer of 2^32 - 1 ms, of the corpus.
const RETRANS_TIMER_OF_49_DAYS: &str = "33330000000102666666666686dd6000000000103afffe80000000000000006666fffe666666ff020000000000000000000000000001\
    86006ffd4000000000000000ffffffff";

/// A Router Advertisement of 2001:db8::/64 with a hop limit of 64, a router lifetime of 1800 s, and all else unspecified.
const ADVERTISEMENT_OF_ROUTER: &str =
    "33330000000102000000000186dd6000000000383afffe80000000000000000000fffe000001ff0200000000000000000000000000018600\
    f9ce4000070800000000000000000101020000000001030440c000278d0000093a800000000020010db8000000000000000000000000";

/// A Router Advertisement of the corpus with a router lifetime of 65,535 s, and a prefix, a server and a search name without an end.
const ADVERTISEMENT_WITHOUT_END: &str =
    "33330000000102000000000186dd6000000000603afffe80000000000000000000fffe000001ff0200000000000000000000000000018600\
    60ed4000ffff00000000000000000101020000000001030440c0ffffffffffffffff0000000020010db800000000000000000000000019030000ffffffff20010db80000000000\
    000000000000531f020000ffffffff0161000000000000";

/// A solicited answer of the router to the host, of the corpus.
const ANSWER_OF_ROUTER: &str = "3456789abcde02000000000186dd6000000000203afffe80000000000000000000fffe000001fe80000000000000365678fffe9abcde\
    88002f4ee0000000fe80000000000000000000fffe0000010201020000000001";

/// A Redirect of the router, of the corpus.
const REDIRECT: &str = "3456789abcde02000000000186dd6000000000303afffe80000000000000000000fffe000001fe80000000000000365678fffe9abcde\
    8900df7d00000000fe80000000000000000000000000000220010db80001000000000000000000050201020000000002";

/// A solicitation of fe80::2 for the host to its solicited-node address, without a link-layer address, of the corpus.
const SOLICITATION_WITHOUT_ADDRESS: &str =
    "3333ff9abcde02000000000286dd6000000000183afffe800000000000000000000000000002ff0200000000000000000001ff9abcde\
    8700555c00000000fe80000000000000365678fffe9abcde";

/// A solicited answer of 2001:db8::1 to the host.
const ANSWER: &str = "3456789abcde02000000000986dd6000000000203aff20010db8000000000000000000000001fe80000000000000365678fffe9abcde88004ed66000\
    000020010db80000000000000000000000010201020000000009";

/// An advertisement of the host's own link-local address, as the host sends it itself.
const OWN_ANSWER_TO_ALL_NODES: &str = "3333000000013456789abcde86dd6000000000203afffe80000000000000365678fffe9abcdeff020000000000000000000000000001\
    88001a3020000000fe80000000000000365678fffe9abcde02013456789abcde";

fn address(text: &str) -> Ipv6Addr {
    text.parse().unwrap()
}

fn bytes(digits: &str) -> Vec<u8> {
    (0..digits.len() / 2).map(|i| u8::from_str_radix(&digits[2 * i..2 * i + 2], 16).unwrap()).collect()
}

fn seconds(number: u64) -> Duration {
    Duration::from_secs(number)
}

fn milliseconds(number: u64) -> Duration {
    Duration::from_millis(number)
}

fn host_options() -> Options {
    few(Options::host(MAC, 0, Draws::Word(0)))
}

fn router_options() -> Options {
    few(Options::router(ROUTER_MAC, 0, Draws::Word(0)))
}

/// Returns options with lower limits, so that the nodes of tests that run at a time fit into the one memory of `dist/nd.c`.
fn few(mut options: Options) -> Options {
    (options.limits.neighbours, options.limits.destinations, options.limits.names) = (16, 8, 4);
    options
}

fn host() -> Node {
    Node::open(host_options()).unwrap()
}

fn router() -> Node {
    Node::open(router_options()).unwrap()
}

/// Opens a node with limits that differ from the usual ones.
fn limited(mut options: Options, limit: impl Fn(&mut Limits)) -> Node {
    limit(&mut options.limits);
    Node::open(options).unwrap()
}

/// Returns the frames of the example, each with its moment. Where a frame is empty time passes.
fn example() -> Vec<(u64, Vec<u8>)> {
    let lines = include_str!("../../../examples/host.hex").lines();
    lines.map(|line| line.split_once(' ').unwrap_or((line, ""))).map(|(moment, digits)| (moment.parse().unwrap(), bytes(digits))).collect()
}

/// Returns a frame of `examples/link.hex`, by the number of its line from 1. `examples/link.txt` says what it is.
fn frame_of_link(line: usize) -> Vec<u8> {
    bytes(include_str!("../../../examples/link.hex").lines().nth(line - 1).unwrap())
}

/// Returns a host that has received all frames of the example.
fn informed() -> Node {
    let mut node = host();
    for (moment, frame) in example() {
        if frame.is_empty() { node.pass(moment) } else { node.receive(moment, &frame) }.unwrap();
    }
    node
}

/// Takes all reports, and returns what they say besides frames.
fn said(node: &mut Node) -> Vec<Output> {
    node.poll().map(|report| report.output).filter(|output| !matches!(output, Output::Frame(_))).collect()
}

/// Returns what is reported of a refusal without a source.
fn refused(refusal: Refusal) -> Output {
    Output::Refused { refusal, source: None }
}

#[test]
fn may_go_to_another_thread() {
    fn goes<T: Send>() {}
    goes::<Node>();
    let mut node = host();
    let reports = std::thread::spawn(move || {
        node.pass(1000).unwrap();
        node.poll().count()
    });
    assert_eq!(reports.join().unwrap(), 3);
}

#[test]
fn a_host_assigns_its_address_and_solicits_routers() {
    let mut node = host();
    assert_eq!(node.last_moment(), 0);
    assert_eq!(node.pass(2000), Ok(()));
    let reports: Vec<_> = node.poll().collect();
    let moments: Vec<u64> = reports.iter().map(|report| report.moment).collect();
    assert_eq!(moments, [0, 1000, 1000]);
    assert_eq!(reports[1].output, Output::Assigned(address("fe80::3656:78ff:fe9a:bcde")));
    assert!(matches!(&reports[2].output, Output::Frame(frame) if frame.len() == 70 && frame[54] == 133));
    assert_eq!(node.next_due(), 5000);
    assert_eq!(node.poll().next(), None);
}

#[test]
fn what_a_host_knows_is_in_rows() {
    let node = informed();
    let now = node.last_moment();
    let own: Vec<Address> = node.addresses(now).unwrap().collect();
    assert_eq!(own[0].address, address("2001:db8::3656:78ff:fe9a:bcde"));
    let left = (Some(milliseconds(604_798_900)), Some(milliseconds(2_591_998_900)));
    assert_eq!((own[0].state, (own[0].preferred_left, own[0].valid_left)), (State::Preferred, left));
    assert_eq!((own[1].state, own[1].valid_left, own.len()), (State::Preferred, None, 2));
    let routers: Vec<Router> = node.routers(now).unwrap().collect();
    let shown = |router: &Router| (router.address, router.left, router.preference);
    assert_eq!(shown(&routers[0]), (address("fe80::ff:fe00:1"), milliseconds(1_798_900), Preference::Medium));
    assert_eq!(shown(&routers[1]), (address("fe80::2"), seconds(1800), Preference::High));
    assert_eq!(routers.len(), 2);
    let prefixes: Vec<Prefix> = node.prefixes(now).unwrap().collect();
    assert_eq!((prefixes[0].prefix, prefixes[0].bits, prefixes[0].left), (address("2001:db8::"), 64, Some(milliseconds(2_591_998_900))));
    assert_eq!(prefixes.len(), 1);
    let neighbours: Vec<Neighbour> = node.neighbours(now).unwrap().collect();
    assert_eq!(neighbours.len(), 2);
    assert_eq!(node.neighbour(now, address("fe80::2")), Ok(Some(neighbours[0])));
    assert_eq!((neighbours[0].mac, neighbours[0].is_router, neighbours[0].state), (Some([2, 0, 0, 0, 0, 2]), true, Reachability::Stale));
    assert_eq!(neighbours[0].reachable_left, None);
    assert_eq!(node.neighbour(now, address("fe80::3")), Ok(None));
    let counts = node.counts(now).unwrap();
    assert_eq!((counts.neighbours, counts.routers, counts.prefixes, counts.addresses), (2, 2, 1, 2));
    let parameters = node.parameters(now).unwrap();
    assert_eq!((parameters.mtu, parameters.hop_limit, parameters.reachable_time), (1500, 64, seconds(15)));
    assert_eq!((parameters.base_reachable_time, parameters.retrans_timer), (seconds(30), seconds(1)));
    assert!(!parameters.managed && !parameters.other);
    assert_eq!(node.servers(now).unwrap().count() + node.names(now).unwrap().count() + node.redirects(now).unwrap().count(), 0);
}

#[test]
fn a_host_knows_servers_and_names() {
    let mut node = host();
    node.receive(2000, &frame_of_link(8)).unwrap();
    let servers = ["2001:db8::53", "2001:db8::54"].map(|server| Server { address: address(server), left: Some(seconds(1800)) });
    assert_eq!(node.servers(2000).unwrap().collect::<Vec<_>>(), servers);
    let names: Vec<_> = node.names(2000).unwrap().map(|name| (name.text, name.left)).collect();
    assert_eq!(names, ["example.com", "sub.example.net"].map(|name| (name.to_string(), Some(seconds(1800)))));
    let prefixes: Vec<_> = node.prefixes(2000).unwrap().map(|prefix| (prefix.prefix, prefix.bits, prefix.left)).collect();
    assert!(prefixes.contains(&(address("2001:db8:1::"), 64, None)) && prefixes.contains(&(address("2001:db8:3:8000::"), 49, Some(seconds(7200)))));
    let parameters = node.parameters(2000).unwrap();
    assert_eq!((parameters.mtu, parameters.managed, parameters.other), (1400, true, true));
    assert_eq!(node.routers(2000).unwrap().next().unwrap().preference, Preference::High);
    assert_eq!((node.clear(2000, Clearable::Dns), node.clear(2000, Clearable::Prefixes)), (Ok(()), Ok(())));
    assert_eq!(node.servers(2000).unwrap().count() + node.names(2000).unwrap().count() + node.prefixes(2000).unwrap().count(), 0);
    node.receive(2100, &frame_of_link(4)).unwrap();
    assert_eq!(node.servers(2100).unwrap().map(|server| server.left).collect::<Vec<_>>(), [None; 3]);
    let parameters = node.parameters(2100).unwrap();
    assert_eq!((parameters.managed, parameters.other), (false, true));
    assert_eq!(node.routers(2100).unwrap().next_back().unwrap().preference, Preference::Low);
}

#[test]
fn a_host_follows_a_redirect() {
    let mut node = host();
    node.receive(1200, &bytes(ADVERTISEMENT_OF_ROUTER)).unwrap();
    node.pass(2200).unwrap();
    let (destination, target) = (address("2001:db8:77::1"), address("fe80::ff:fe00:2"));
    assert_eq!(node.next_hop(3000, destination), Ok(Some(Hop::Via(address("fe80::ff:fe00:1")))));
    node.receive(3000, &frame_of_link(13)).unwrap();
    let redirect = Output::Heard { source: address("fe80::ff:fe00:1"), message_type: MessageType::Redirect };
    assert!(said(&mut node).contains(&redirect));
    assert_eq!(node.redirects(3000).unwrap().collect::<Vec<_>>(), [Redirect { destination, target }]);
    assert_eq!(node.next_hop(3000, destination), Ok(Some(Hop::Via(target))));
    assert_eq!(node.clear(3000, Clearable::Redirects), Ok(()));
    assert_eq!(node.redirects(3000).unwrap().count(), 0);
}

#[test]
fn rows_begin_anew_in_a_clone_and_end_for_good() {
    let node = informed();
    let mut rows = node.routers(node.last_moment()).unwrap();
    assert_eq!(format!("{rows:?}"), format!("{:?}", rows.clone().collect::<Vec<_>>()));
    assert_eq!(rows.by_ref().count(), 2);
    assert_eq!((rows.next(), rows.next()), (None, None));
}

#[test]
fn packets_go_to_their_next_hop() {
    let mut node = informed();
    let (own, far) = (address("2001:db8::3656:78ff:fe9a:bcde"), address("2001:db8:1::5"));
    assert_eq!(node.next_hop(2300, far), Ok(Some(Hop::Via(address("fe80::2")))));
    assert_eq!(node.next_hop(2300, address("2001:db8::1")), Ok(Some(Hop::Direct)));
    node.poll().for_each(drop);
    assert_eq!(node.send(2400, own, far, 17, &[]), Ok(()));
    let sent = bytes("0200000000023456789abcde86dd600000000000114020010db800000000365678fffe9abcde20010db8000100000000000000000005");
    let mut buffer = [0; BUFFER_BYTES];
    assert_eq!(node.poll_into(&mut buffer[..53]), Err(Error::NoRoom(54)));
    let report = node.poll_into(&mut buffer).unwrap().unwrap();
    assert_eq!((report.moment, report.output), (2400, Output::Frame(&sent[..])));
    assert_eq!(node.poll_into(&mut buffer), Ok(None));
    assert_eq!(node.confirm(2500, address("fe80::2")), Ok(()));
    let confirmed = node.neighbour(2500, address("fe80::2")).unwrap().unwrap();
    assert_eq!((confirmed.state, confirmed.reachable_left), (Reachability::Reachable, Some(node.parameters(2500).unwrap().reachable_time)));
    assert_eq!(node.forget(2500, address("fe80::2")), Ok(()));
    assert_eq!(node.neighbour(2500, address("fe80::2")), Ok(None));
    assert_eq!(node.clear(2500, Clearable::Routers), Ok(()));
    assert_eq!(said(&mut node), [Output::EndedRouter(address("fe80::ff:fe00:1")), Output::EndedRouter(address("fe80::2"))]);
    assert_eq!(node.next_hop(2500, far), Ok(None));
    assert_eq!(node.send(2500, own, far, 17, &[7]), Err(Error::NoRoute));
    assert!(matches!(&said(&mut node)[..], [Output::Lost(Loss::NoRoute, packet)] if packet.len() == 41 && packet[40] == 7));
}

#[test]
fn packets_wait_for_their_next_hop() {
    let mut node = limited(host_options(), |limits| limits.waiting = 1);
    node.pass(2000).unwrap();
    let (own, neighbour) = (address("fe80::3656:78ff:fe9a:bcde"), address("fe80::2"));
    assert_eq!(node.send(2000, own, neighbour, 17, &[1]), Ok(()));
    said(&mut node);
    assert_eq!(node.send(2000, own, neighbour, 17, &[2]), Ok(()));
    assert!(matches!(&said(&mut node)[..], [Output::Lost(Loss::Replaced, packet)] if packet[40..] == [1]));
    assert_eq!(node.clear(2000, Clearable::Neighbours), Ok(()));
    assert!(matches!(&said(&mut node)[..], [Output::Lost(Loss::Forgotten, packet)] if packet[40..] == [2]));
}

#[test]
fn mistakes_are_errors() {
    let mut node = host();
    let mut options = host_options();
    options.transmits = 9;
    assert_eq!(Node::open(options).err(), Some(Error::Invalid));
    assert_eq!(Node::open(few(Options::host(MAC, MOMENT_LIMIT, Draws::Seed(1)))).err(), Some(Error::Invalid));
    assert_eq!(Node::open(few(Options::host(MAC, MOMENT_LIMIT - 1, Draws::Seed(1)))).unwrap().last_moment(), MOMENT_LIMIT - 1);
    node.pass(2000).unwrap();
    assert_eq!(node.pass(1999), Err(Error::Past));
    assert_eq!(node.pass(MOMENT_LIMIT), Err(Error::Invalid));
    assert_eq!(node.next_hop(1999, address("fe80::2")), Err(Error::Past));
    assert_eq!(node.resolve(MOMENT_LIMIT, address("fe80::2")), Err(Error::Invalid));
    assert_eq!(node.addresses(1999).err(), Some(Error::Past));
    assert_eq!(node.addresses(MOMENT_LIMIT).err(), Some(Error::Invalid));
    assert_eq!((node.parameters(1999).err(), node.counts(MOMENT_LIMIT).err()), (Some(Error::Past), Some(Error::Invalid)));
    node.poll().for_each(drop);
    assert_eq!(node.receive(2000, &[]), Ok(()));
    assert_eq!(said(&mut node), [Output::Dropped(Why::FrameShort)]);
}

#[test]
fn a_host_is_refused_what_a_router_does() {
    let mut node = host();
    let route = Route { prefix: address("2001:db8:1::"), bits: 64, hop: Hop::Direct };
    let offer = Offer::new(address("2001:db8::"), 64);
    let settings = Advertising::default();
    let events = [node.advertise(2000, &settings), node.advertise_prefix(2000, &offer), node.add_route(2000, &route), node.stop_advertising(2000)];
    assert_eq!(events, [Err(Error::Refused(Refusal::WrongRole)); 4]);
    let said = said(&mut node);
    assert_eq!(said.iter().filter(|&output| *output == refused(Refusal::WrongRole)).count(), 4);
    assert_eq!(node.last_moment(), 2000);
}

#[test]
fn a_packet_is_refused_for_its_source_and_for_its_length() {
    let mut node = host();
    node.pass(2000).unwrap();
    said(&mut node);
    let (own, unknown) = (address("fe80::3656:78ff:fe9a:bcde"), address("2001:db8::9"));
    assert_eq!(node.send(2000, unknown, unknown, 17, &[]), Err(Error::Refused(Refusal::NotOurs)));
    assert_eq!(said(&mut node), [Output::Refused { refusal: Refusal::NotOurs, source: Some(unknown) }]);
    assert_eq!(node.send(2000, own, address("fe80::2"), 17, &[0; 1461]), Err(Error::Refused(Refusal::TooLong)));
    assert_eq!(said(&mut node), [refused(Refusal::TooLong)]);
    assert_eq!(node.send(2000, own, address("fe80::2"), 17, &[0; 1460]), Ok(()));
}

#[test]
fn a_node_whose_link_local_address_is_a_duplicate_is_disabled() {
    let mut node = host();
    let link_local = address("fe80::3656:78ff:fe9a:bcde");
    node.receive(500, &bytes(OWN_ANSWER_TO_ALL_NODES)).unwrap();
    assert!(said(&mut node).contains(&Output::Duplicate(link_local)));
    assert_eq!(node.addresses(500).unwrap().next().unwrap().state, State::Duplicate);
    let disabled = Err(Error::Refused(Refusal::Disabled));
    assert_eq!(node.add_address(500, &OwnAddress::without_end(address("2001:db8::5"))), disabled);
    assert_eq!(said(&mut node), [refused(Refusal::Disabled)]);
    assert_eq!(node.send(500, link_local, address("fe80::2"), 17, &[]), disabled);
    assert_eq!(said(&mut node), [refused(Refusal::Disabled)]);
    assert_eq!(node.resolve(500, address("fe80::2")), Err(Error::Refused(Refusal::Disabled)));
    assert_eq!(said(&mut node), []);
}

#[test]
fn an_event_is_refused_for_a_limit() {
    let mut node = limited(host_options(), |limits| (limits.neighbours, limits.addresses) = (1, 1));
    node.pass(2000).unwrap();
    said(&mut node);
    assert!(node.resolve(2000, address("fe80::2")).unwrap().is_some());
    let full = Error::Refused(Refusal::Full(Limit::Neighbours));
    assert_eq!(node.resolve(2000, address("fe80::3")), Err(full));
    assert_eq!(said(&mut node), []);
    assert_eq!(node.send(2000, address("fe80::3656:78ff:fe9a:bcde"), address("fe80::3"), 17, &[]), Err(full));
    assert_eq!(said(&mut node), [refused(Refusal::Full(Limit::Neighbours))]);
    let own = OwnAddress::without_end(address("2001:db8::5"));
    assert_eq!(node.add_address(2000, &own), Err(Error::Refused(Refusal::Full(Limit::Addresses))));
    assert_eq!(said(&mut node), [refused(Refusal::Full(Limit::Addresses))]);
}

#[test]
fn a_message_is_refused_for_a_limit_or_taken_in_part() {
    let frames = example();
    let (last, advertisement) = frames.last().unwrap();
    for parts in [false, true] {
        let mut options = host_options();
        options.policies.parts = parts;
        let mut node = limited(options, |limits| limits.routers = 1);
        for (moment, frame) in &frames[..frames.len() - 1] {
            node.receive(*moment, frame).unwrap();
        }
        said(&mut node);
        let full = Refusal::Full(Limit::Routers);
        assert_eq!(node.receive(*last, advertisement), if parts { Ok(()) } else { Err(Error::Refused(full)) });
        let said = said(&mut node);
        assert_eq!(said.contains(&Output::Ignored(Limit::Routers)), parts);
        assert_eq!(said.contains(&refused(full)), !parts);
        assert_eq!(node.counts(*last).unwrap().routers, 1);
    }
}

#[test]
fn a_router_advertises() {
    let mut node = router();
    let settings = Advertising::default();
    let mut offer = Offer::new(address("2001:db8::"), 64);
    (offer.valid_lifetime, offer.preferred_lifetime) = (Some(seconds(3600)), Some(seconds(1800)));
    let route = Route { prefix: address("2001:db8:1::"), bits: 64, hop: Hop::Via(address("fe80::2")) };
    node.pass(1000).unwrap();
    said(&mut node);
    assert_eq!(node.advertising(1000), Ok(None));
    assert_eq!(node.advertise_prefix(1000, &offer), Ok(()));
    assert_eq!(node.add_route(1000, &route), Ok(()));
    assert_eq!(node.advertise(1000, &settings), Ok(()));
    assert_eq!(node.advertising(1000), Ok(Some(settings)));
    assert_eq!(node.offers(1000).unwrap().collect::<Vec<_>>(), [offer]);
    assert_eq!(node.routes(1000).unwrap().collect::<Vec<_>>(), [route]);
    node.pass(1000).unwrap();
    let Some(Output::Frame(frame)) = node.poll().next().map(|report| report.output) else { panic!("an advertisement is due") };
    assert_eq!((frame[54], &frame[58..70]), (134, &bytes("400007080000000000000000")[..]));
    assert_eq!(node.next_hop(1000, address("2001:db8:1::7")), Ok(Some(Hop::Via(address("fe80::2")))));
    assert_eq!(node.stop_advertising(1000), Ok(()));
    assert_eq!(node.advertising(1000), Ok(None));
}

#[test]
fn an_advertisement_says_what_was_set() {
    let mut node = router();
    let mut settings = Advertising::default();
    (settings.min_interval, settings.max_interval, settings.lifetime) = (seconds(3), seconds(4), seconds(9000));
    (settings.reachable_time, settings.retrans_timer) = (Some(seconds(3600)), Some(milliseconds(u32::MAX.into())));
    (settings.mtu, settings.hop_limit, settings.preference) = (Some(1280), Some(255), Preference::Low);
    (settings.managed, settings.other) = (true, false);
    let mut offer = Offer::new(address("2001:db8:ffff::1"), 48);
    (offer.valid_lifetime, offer.autonomous) = (None, false);
    assert_eq!(node.advertise_prefix(1000, &offer), Ok(()));
    assert_eq!(node.advertise(1000, &settings), Ok(()));
    assert_eq!(node.advertising(1000), Ok(Some(settings)));
    offer.prefix = address("2001:db8:ffff::");
    assert_eq!(node.offers(1000).unwrap().next(), Some(offer));
    node.pass(1000).unwrap();
    let Output::Frame(frame) = node.poll().last().unwrap().output else { panic!("an advertisement is due") };
    let Hearing::Valid(heard) = hear(&frame, Role::Host) else { panic!("it is valid") };
    assert_eq!((heard.source, heard.destination), (address("fe80::ff:fe00:1"), address("ff02::1")));
    let Message::RouterAdvertisement(advertised) = heard.message else { panic!("it is of a router") };
    assert_eq!((advertised.hop_limit, advertised.managed, advertised.other, advertised.preference), (Some(255), true, false, Preference::Low));
    assert_eq!(advertised.router_lifetime, seconds(9000));
    assert_eq!((advertised.reachable_time, advertised.retrans_timer), (settings.reachable_time, settings.retrans_timer));
    let prefix = bytes("03043080ffffffff00093a800000000020010db8ffff00000000000000000000");
    let mtu = bytes("0501000000000500");
    assert!([prefix, mtu].iter().all(|option| heard.options.windows(option.len()).any(|bytes| bytes == option)));
    assert_eq!(frame[54 + 4..54 + 16], bytes("ff9823280036ee80ffffffff"));
}

#[test]
fn what_a_router_may_not_advertise_is_invalid() {
    let mut node = router();
    let usual = Advertising::default();
    let wrong: [fn(&mut Advertising); 12] = [
        |it| it.min_interval = milliseconds(3500),
        |it| it.min_interval = seconds(2),
        |it| it.max_interval = seconds(1801),
        |it| it.max_interval = seconds(1 << 32 | 600),
        |it| it.lifetime = seconds(9001),
        |it| it.reachable_time = Some(Duration::ZERO),
        |it| it.reachable_time = Some(milliseconds(3_600_001)),
        |it| it.retrans_timer = Some(Duration::from_micros(1500)),
        |it| it.retrans_timer = Some(milliseconds(1 << 32)),
        |it| it.mtu = Some(1501),
        |it| it.hop_limit = Some(0),
        |it| (it.lifetime, it.preference) = (Duration::ZERO, Preference::High),
    ];
    for change in wrong {
        let mut settings = usual;
        change(&mut settings);
        assert_eq!(node.advertise(1000, &settings), Err(Error::Invalid), "{settings:?}");
    }
    let wrong: [fn(&mut Offer); 6] = [
        |it| it.bits = 129,
        |it| it.prefix = Ipv6Addr::new(0xfe80, 0, 0, 0, 0, 0, 0, 0),
        |it| it.valid_lifetime = Some(seconds(604_799)),
        |it| it.valid_lifetime = Some(seconds(u32::MAX.into())),
        |it| it.preferred_lifetime = Some(milliseconds(1)),
        |it| it.preferred_lifetime = None,
    ];
    for change in wrong {
        let mut offer = Offer::new(address("2001:db8::"), 64);
        change(&mut offer);
        assert_eq!(node.advertise_prefix(1000, &offer), Err(Error::Invalid), "{offer:?}");
    }
    let route = Route { prefix: address("2001:db8:1::"), bits: 129, hop: Hop::Direct };
    assert_eq!(node.add_route(1000, &route), Err(Error::Invalid));
    assert_eq!((node.last_moment(), node.poll().count()), (0, 0));
}

#[test]
fn an_address_is_given_by_hand_and_taken_back() {
    for mut node in [host(), router()] {
        let global = address("2001:db8::5");
        let own = OwnAddress { address: global, valid_lifetime: Some(seconds(20)), preferred_lifetime: None };
        assert_eq!(node.add_address(999, &own), Err(Error::Invalid));
        let own = OwnAddress { preferred_lifetime: Some(seconds(10)), ..own };
        for valid_lifetime in [Duration::ZERO, milliseconds(20_500), seconds(u32::MAX.into()), Duration::MAX] {
            assert_eq!(node.add_address(999, &OwnAddress { valid_lifetime: Some(valid_lifetime), ..own }), Err(Error::Invalid));
        }
        assert_eq!(node.add_address(999, &own), Err(Error::Refused(Refusal::Tentative)));
        assert_eq!(said(&mut node), [refused(Refusal::Tentative)]);
        assert_eq!(node.add_address(1000, &own), Ok(()));
        let link_local = node.addresses(1000).unwrap().next_back().unwrap();
        assert_eq!(said(&mut node), [Output::Assigned(link_local.address)]);
        assert!(!link_local.by_hand);
        let shown = |node: &Node, now| {
            let own = node.addresses(now).unwrap().next().unwrap();
            (own.address, own.state, own.preferred_left, own.valid_left, own.by_hand)
        };
        assert_eq!(shown(&node, 1000), (global, State::Tentative, Some(seconds(10)), Some(seconds(20)), true));
        assert_eq!(node.pass(2000), Ok(()));
        assert_eq!(said(&mut node), [Output::Assigned(global)]);
        assert_eq!(node.add_address(2000, &OwnAddress::without_end(global)), Ok(()));
        assert_eq!(shown(&node, 2000), (global, State::Preferred, None, None, true));
        assert_eq!(node.remove_address(2000, link_local.address), Ok(()));
        assert_eq!(said(&mut node), []);
        assert_eq!(node.remove_address(2000, global), Ok(()));
        assert_eq!(said(&mut node), [Output::EndedAddress(global)]);
        assert_eq!(node.addresses(2000).unwrap().count(), 1);
    }
}

#[test]
fn an_address_that_a_router_announces_is_not_given_by_hand() {
    let node = informed();
    assert!(node.addresses(node.last_moment()).unwrap().all(|own| !own.by_hand));
}

#[test]
fn a_stack_that_keeps_its_packets_asks_where_they_go() {
    let (neighbour, mac) = (address("2001:db8::1"), [2, 0, 0, 0, 0, 9]);
    let mut node = host();
    assert_eq!(node.resolve(999, neighbour), Err(Error::Refused(Refusal::Tentative)));
    assert_eq!(said(&mut node), []);
    assert_eq!(node.receive(1200, &bytes(ADVERTISEMENT_OF_ROUTER)), Ok(()));
    assert_eq!(node.pass(2200), Ok(()));
    said(&mut node);
    for solicitations in [1, 0] {
        let waiting = node.resolve(3000, neighbour).unwrap().unwrap();
        assert_eq!((waiting.next_hop, waiting.hop, waiting.mac), (neighbour, Hop::Direct, None));
        assert_eq!((waiting.state, waiting.until, waiting.version), (Some(Reachability::Incomplete), 3000, 0));
        assert!(!node.is_leased(3000, &waiting));
        assert_eq!(node.poll().count(), solicitations);
    }
    assert_eq!(node.receive(3500, &bytes(ANSWER)), Ok(()));
    let heard = Output::Heard { source: neighbour, message_type: MessageType::NeighborAdvertisement };
    assert_eq!(said(&mut node), [heard, Output::Resolved { neighbour, mac }]);
    let path = node.resolve(3500, neighbour).unwrap().unwrap();
    assert_eq!((path.next_hop, path.mac, path.state), (neighbour, Some(mac), Some(Reachability::Reachable)));
    let left = node.neighbour(3500, neighbour).unwrap().unwrap().reachable_left.unwrap();
    assert!(path.until > 3500 && milliseconds(path.until - 3500) <= left && path.until <= node.next_due());
    assert_eq!(path.version, node.lease_version());
    let far = node.resolve(3500, address("2001:db8:1::5")).unwrap().unwrap();
    assert_eq!((far.next_hop, far.hop), (address("fe80::ff:fe00:1"), Hop::Via(address("fe80::ff:fe00:1"))));
    let group = node.resolve(3500, address("ff02::1:2")).unwrap().unwrap();
    assert_eq!((group.mac, group.state), (Some([0x33, 0x33, 0, 1, 0, 2]), None));
    let own = node.addresses(3500).unwrap().next_back().unwrap().address;
    assert_eq!(node.resolve(3500, own), Ok(None));
    assert_eq!(node.poll().count(), 0);
}

#[test]
fn a_lease_has_a_version_that_an_event_ends() {
    let (router, mac) = (address("fe80::2"), [2, 0, 0, 0, 0, 2]);
    let mut node = informed();
    assert_eq!(node.confirm(2300, router), Ok(()));
    let lease = node.resolve(2300, router).unwrap().unwrap();
    assert_eq!((lease.mac, lease.state, lease.version), (Some(mac), Some(Reachability::Reachable), node.lease_version()));
    assert!(lease.until > 2301 && lease.version > 0);
    assert!(node.is_leased(2300, &lease) && node.is_leased(lease.until - 1, &lease) && !node.is_leased(lease.until, &lease));
    assert!(node.poll().count() > 0);
    assert_eq!(node.lease_version(), lease.version);
    assert_eq!(node.resolve(2301, router), Ok(Some(lease)));
    assert_eq!(node.pass(2301), Ok(()));
    assert_eq!(node.pass(2300), Err(Error::Past));
    assert_eq!(node.lease_version(), lease.version);
    for least in [seconds(1), Duration::from_nanos(1_000_001), Duration::MAX] {
        assert_eq!(node.confirm_to(2301, router, least), Ok(false));
    }
    assert_eq!(node.receive(2301, &[]), Ok(()));
    assert_eq!(node.lease_version(), lease.version);
    assert_eq!(node.confirm_to(2301, router, milliseconds(1)), Ok(true));
    assert_eq!(node.lease_version(), lease.version);
    let mut longer = lease;
    longer.until += 1;
    assert_eq!(node.resolve(2301, router), Ok(Some(longer)));
    assert_eq!(node.confirm_to(2302, router, Duration::from_nanos(1)), Ok(true));
    assert!(node.is_leased(2302, &longer));
    assert_eq!(node.forget(2302, router), Ok(()));
    assert!(node.lease_version() > lease.version);
    assert!(!node.is_leased(2302, &longer));
}

#[test]
fn a_frame_is_heard_without_a_node() {
    let frame = bytes(ADVERTISEMENT_OF_ROUTER);
    let Hearing::Valid(heard) = hear(&frame, Role::Host) else { panic!("it is valid") };
    assert_eq!((heard.source, heard.destination), (address("fe80::ff:fe00:1"), address("ff02::1")));
    assert_eq!((heard.message.message_type(), heard.options), (MessageType::RouterAdvertisement, &frame[14 + 40 + 16..]));
    let Message::RouterAdvertisement(advertised) = heard.message else { panic!("it is of a router") };
    assert_eq!((advertised.hop_limit, advertised.router_lifetime, advertised.preference), (Some(64), seconds(1800), Preference::Medium));
    assert_eq!((advertised.reachable_time, advertised.retrans_timer), (None, None));
    assert!(!advertised.managed && !advertised.other);
    assert_eq!(hear(&frame, Role::Router), Hearing::Drop(Why::NotForUs));
    assert_eq!(hear(&[], Role::Host), Hearing::Drop(Why::FrameShort));
}

#[test]
fn each_message_says_what_is_in_it() {
    let answer = bytes(ANSWER);
    let Hearing::Valid(heard) = hear(&answer, Role::Host) else { panic!("it is valid") };
    let target = address("2001:db8::1");
    assert_eq!(heard.message, Message::NeighborAdvertisement { target, router: false, solicited: true, override_flag: true });
    assert_eq!(heard.options, bytes("0201020000000009"));
    let redirect = frame_of_link(13);
    let Hearing::Valid(heard) = hear(&redirect, Role::Host) else { panic!("it is valid") };
    assert_eq!(heard.message, Message::Redirect { target: address("fe80::ff:fe00:2"), destination: address("2001:db8:77::1") });
    let mut node = host();
    node.pass(2000).unwrap();
    let frames: Vec<Vec<u8>> = node.poll().filter_map(|report| if let Output::Frame(frame) = report.output { Some(frame) } else { None }).collect();
    let Hearing::Valid(heard) = hear(&frames[0], Role::Host) else { panic!("it is valid") };
    assert_eq!((heard.source, heard.destination), (Ipv6Addr::UNSPECIFIED, address("ff02::1:ff9a:bcde")));
    assert_eq!(heard.message, Message::NeighborSolicitation { target: address("fe80::3656:78ff:fe9a:bcde") });
    assert_eq!(heard.options, []);
    let Hearing::Valid(heard) = hear(&frames[1], Role::Router) else { panic!("it is valid") };
    assert_eq!((heard.message, heard.options), (Message::RouterSolicitation, &bytes("01013456789abcde")[..]));
}

#[test]
fn another_packet_is_heard_as_such() {
    let frame = bytes("0200000000023456789abcde86dd600000000000114020010db800000000365678fffe9abcde20010db8000100000000000000000005");
    let Hearing::Other(packet) = hear(&frame, Role::Host) else { panic!("it is an empty packet of UDP") };
    assert_eq!((packet.source, packet.destination), (address("2001:db8::3656:78ff:fe9a:bcde"), address("2001:db8:1::5")));
    assert_eq!(packet.next_header, 17);
}

/// Returns the usual limits.
fn usual() -> Limits {
    let mut limits = Limits::default();
    (limits.neighbours, limits.routers, limits.prefixes, limits.addresses) = (512, 16, 64, 64);
    (limits.servers, limits.names, limits.redirects, limits.destinations) = (32, 32, 64, 256);
    (limits.offers, limits.routes, limits.waiting) = (16, 64, 3);
    limits
}

/// Returns the usual limits with a change.
fn but(change: impl Fn(&mut Limits)) -> Limits {
    let mut limits = usual();
    change(&mut limits);
    limits
}

#[test]
fn limits_are_chosen() {
    let mut options = host_options();
    options.limits = but(|it| (it.prefixes, it.addresses, it.names, it.waiting) = (4, 5, 2, 8));
    let counts = Node::open(options.clone()).unwrap().counts(0).unwrap();
    assert_eq!((counts.limits, counts.addresses), (options.limits, 1));
    let others = [counts.neighbours, counts.routers, counts.prefixes, counts.servers, counts.names, counts.redirects, counts.offers, counts.routes];
    assert_eq!(others, [0; 8]);
    assert_eq!(Node::open(Options::host(MAC, 0, Draws::Word(0))).unwrap().counts(0).unwrap().limits, usual());
    options.limits = but(|it| it.waiting = 9);
    assert_eq!(Node::open(options).err(), Some(Error::Invalid));
}

#[test]
fn policies_are_chosen() {
    let mut timers = Policies::default();
    timers.timers = true;
    for (policies, retrans_timer) in [(timers, 1_000), (Policies::robust(), 1_000), (Policies::default(), u32::MAX)] {
        let mut options = host_options();
        options.policies = policies;
        let mut node = Node::open(options).unwrap();
        assert_eq!(node.receive(1_200, &bytes(RETRANS_TIMER_OF_49_DAYS)), Ok(()));
        assert_eq!(node.parameters(1_200).unwrap().retrans_timer, milliseconds(retrans_timer.into()));
    }
}

/// Opens a host with a policy, or without one, and passes it a Router Advertisement whose lifetimes have no end.
fn informed_by(choose: impl Fn(&mut Policies)) -> Node {
    let mut options = host_options();
    choose(&mut options.policies);
    let mut node = Node::open(options).unwrap();
    node.receive(1_200, &bytes(ADVERTISEMENT_WITHOUT_END)).unwrap();
    said(&mut node);
    node
}

#[test]
fn what_is_announced_ends() {
    for (node, router, other) in [(informed_by(|_| ()), 65_535, None), (informed_by(|it| it.lifetimes = true), 9_000, Some(seconds(604_800)))] {
        assert_eq!(node.routers(1_200).unwrap().next().unwrap().left, seconds(router));
        assert_eq!(node.prefixes(1_200).unwrap().next().unwrap().left, other);
        assert_eq!(node.addresses(1_200).unwrap().next().unwrap().valid_left, other);
        assert_eq!(node.servers(1_200).unwrap().next().unwrap().left, other);
        assert_eq!(node.names(1_200).unwrap().next().unwrap().left, other);
    }
    let unformed = informed_by(|it| it.unformed = true).counts(1_200).unwrap();
    assert_eq!((unformed.addresses, unformed.prefixes), (1, 1));
}

#[test]
fn what_nobody_asked_confirms_nothing() {
    for (mut node, state) in [(informed_by(|_| ()), Reachability::Reachable), (informed_by(|it| it.asked = true), Reachability::Stale)] {
        node.receive(1_300, &bytes(ANSWER_OF_ROUTER)).unwrap();
        assert_eq!(node.neighbour(1_300, address("fe80::ff:fe00:1")).unwrap().unwrap().state, state);
    }
}

#[test]
fn what_a_policy_forbids_is_dropped() {
    for (mut node, frame, is_dropped) in [
        (informed_by(|_| ()), REDIRECT, false),
        (informed_by(|it| it.unredirected = true), REDIRECT, true),
        (informed_by(|_| ()), SOLICITATION_WITHOUT_ADDRESS, false),
        (informed_by(|it| it.strict = true), SOLICITATION_WITHOUT_ADDRESS, true),
    ] {
        node.receive(1_300, &bytes(frame)).unwrap();
        assert_eq!(said(&mut node).contains(&Output::Dropped(Why::NotForUs)), is_dropped);
    }
}

#[test]
fn what_comes_from_the_node_itself_is_dropped() {
    for own in [true, false] {
        let mut options = host_options();
        options.policies.own = own;
        let mut node = Node::open(options).unwrap();
        assert_eq!(node.receive(1_200, &bytes(OWN_ANSWER_TO_ALL_NODES)), Ok(()));
        let last = node.poll().last().unwrap().output;
        assert_eq!(last == Output::Dropped(Why::NotForUs), own);
    }
}

#[test]
fn a_router_has_no_more_routes_and_offers_than_its_limits() {
    let mut node = limited(router_options(), |limits| (limits.routes, limits.offers) = (1, 1));
    let to = |prefix| Route { prefix: address(prefix), bits: 64, hop: Hop::Direct };
    assert_eq!(node.add_route(0, &to("2001:db8::")), Ok(()));
    said(&mut node);
    assert_eq!(node.add_route(0, &to("2001:db8:1::")), Err(Error::Refused(Refusal::Full(Limit::StaticRoutes))));
    assert_eq!(said(&mut node), [refused(Refusal::Full(Limit::StaticRoutes))]);
    assert_eq!(node.advertise_prefix(0, &Offer::new(address("2001:db8::"), 64)), Ok(()));
    assert_eq!(node.advertise_prefix(0, &Offer::new(address("2001:db8:1::"), 64)), Err(Error::Refused(Refusal::Full(Limit::Offers))));
    assert_eq!(said(&mut node), [refused(Refusal::Full(Limit::Offers))]);
    let counts = node.counts(0).unwrap();
    assert_eq!((counts.routes, counts.offers), (1, 1));
}

#[test]
fn an_error_says_what_it_is() {
    assert_eq!(Error::Refused(Refusal::Full(Limit::StaticRoutes)).to_string(), "refused: the limit of static routes is reached");
    assert_eq!(Error::NoRoom(54).to_string(), "the buffer is too short for 54 bytes");
    assert_eq!((Limit::from(99), u32::from(Limit::Other(99))), (Limit::Other(99), 99));
    fn is_error<T: std::error::Error + Send + Sync + 'static>() {}
    is_error::<Error>();
}

#[test]
fn the_version_and_the_bytes() {
    assert_eq!((version().0, version().1 >= 1), (0, true));
    assert_eq!(node_bytes(&Limits::default()), node_bytes(&usual()));
    assert_eq!(node_bytes(&but(|it| it.neighbours = 2049)), None);
    assert!(node_bytes(&but(|it| (it.neighbours, it.routers) = (16, 1))) < node_bytes(&usual()));
    assert_eq!(pool_bytes(&Limits::default(), 1514), pool_bytes(&usual(), 1514));
    assert_eq!(pool_bytes(&but(|it| it.waiting = 9), 1514), None);
    assert!(pool_bytes(&usual(), 590) < pool_bytes(&usual(), 1514));
    assert_eq!(pool_bytes(&usual(), 65_589), pool_bytes(&usual(), usize::MAX));
}
