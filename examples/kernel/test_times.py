"""What takes time: resolution and unreachability detection (RFC 4861, 7.2.2 and 7.3.3), and what ends (RFC 4861, 6.3.5; RFC 4862, 5.5.4). Each test
is a scenario: a function that yields how many milliseconds it waits. All of them run side by side, each on a link of its own."""
import pytest

import clock
import frames
import pace
import rfc
from judge import Judge
from link import HEARING
from test_routers import FAR, SECOND, SECOND_MAC, compare, second

# What a router announces as its Retrans Timer and its Reachable Time, in milliseconds.
RETRANS, BASE = 700, 2000
NEIGHBOUR = "fe80::5"


def solicitations(link, judge):
    """Compares the Neighbor Solicitations, but for their times. Returns those of the kernel and those of the model, each behind a name."""
    kernel, model = link.messages(frames.NS)
    judge.compare("neighbor solicitations", [frame for _, frame in kernel], [frame for _, frame in model])
    return ("kernel", kernel), ("model", model)


def entry(link, judge, **event):
    """Compares the entry of the neighbour, and returns it."""
    kernel, model = link.both("neighbour", NEIGHBOUR)
    judge.compare("neighbour", kernel, model, NEIGHBOUR, **event)
    return model


def enter(link):
    """Enters the neighbour, STALE."""
    link.send(frames.ra(source=NEIGHBOUR, mac=frames.PEER_MAC, lifetime=0))


def answer(link):
    link.send(frames.na(NEIGHBOUR, 1, 1, tlla=frames.PEER_MAC))


def resolution_fails(link, judge, retrans=rfc.RETRANS_TIMER):
    """Three solicitations, RetransTimer apart, and then there is no entry."""
    link.packet(NEIGHBOUR)
    yield pace.longest((rfc.MAX_MULTICAST_SOLICIT - 1) * retrans)
    assert entry(link, judge).state == "INCOMPLETE"
    yield pace.longest(retrans)
    for who, sent in solicitations(link, judge):
        pace.require(who, sent, rfc.MAX_MULTICAST_SOLICIT - 1, retrans)
    assert entry(link, judge) is None


def resolution_fails_by_retrans_timer(link, judge):
    link.send(frames.ra(retranstimer=RETRANS))
    yield from resolution_fails(link, judge, RETRANS)


def late_answer(link, judge):
    """The answer to the second solicitation releases what waits."""
    link.packet(NEIGHBOUR)
    yield pace.longest(rfc.RETRANS_TIMER)
    assert entry(link, judge).state == "INCOMPLETE"
    answer(link)
    yield HEARING
    judge.compare("packets", *link.packets(NEIGHBOUR), NEIGHBOUR)
    assert entry(link, judge).state == "REACHABLE"


def packets_wait(link, judge):
    """Five packets to a neighbour that is not resolved."""
    for content in (b"1", b"2", b"3", b"4", b"5"):
        link.packet(NEIGHBOUR, content)
    yield HEARING
    answer(link)
    yield 3 * HEARING
    judge.compare("packets that waited", *link.packets(NEIGHBOUR), NEIGHBOUR)


def probing(link, judge):
    """STALE, a packet, DELAY, three probes, and then there is no entry."""
    enter(link)
    yield HEARING
    link.packet(NEIGHBOUR)
    begun = clock.now()
    yield rfc.DELAY_FIRST_PROBE_TIME - 500
    assert entry(link, judge).state == "DELAY"
    yield 500 + pace.UNTIL_UNREACHABLE - rfc.DELAY_FIRST_PROBE_TIME
    for who, sent in solicitations(link, judge):
        assert pace.is_within(sent[0][0] - begun, rfc.DELAY_FIRST_PROBE_TIME, rfc.DELAY_FIRST_PROBE_TIME), f"of the {who}"
        pace.require(who, sent, rfc.MAX_UNICAST_SOLICIT - 1, rfc.RETRANS_TIMER)
    assert entry(link, judge) is None


def answered_probe(link, judge):
    """The answer to a probe makes the neighbour REACHABLE, and there is no probe after it."""
    enter(link)
    yield HEARING
    link.packet(NEIGHBOUR)
    yield pace.longest(rfc.DELAY_FIRST_PROBE_TIME)
    assert entry(link, judge).state == "PROBE"
    answer(link)
    yield HEARING
    assert entry(link, judge).state == "REACHABLE"
    link.clear()
    yield pace.longest(rfc.RETRANS_TIMER)
    judge.compare("probes after the answer", *link.messages(frames.NS))


def reachable_time(link, judge, is_used=True):
    """REACHABLE lasts for ReachableTime, which each draws from the range of the router's base (RFC 4861, 6.3.2 and 6.3.4)."""
    link.send(frames.ra(reachabletime=BASE))
    enter(link)
    yield HEARING if is_used else pace.longest(rfc.DELAY_FIRST_PROBE_TIME)
    if is_used:
        link.packet(NEIGHBOUR)
    begun, ends = clock.now(), {}
    answer(link)
    yield HEARING
    assert entry(link, judge).state == "REACHABLE"
    least, most = rfc.reachable_range(BASE)
    while len(ends) < 2 and clock.now() < begun + 2 * most:
        yield 2 * HEARING
        for name, now in (("kernel", link.stack.neighbour(NEIGHBOUR)), ("model", link.model.neighbour(clock.now(), NEIGHBOUR))):
            if now.state != "REACHABLE":
                ends.setdefault(name, (clock.now() - begun, now.state))
    assert all(pace.is_within(passed, least, most) for passed, _ in ends.values()), f"{ends}, and not from {least} to {most} ms"
    judge.compare("state behind REACHABLE", ends["kernel"][1], ends["model"][1], is_used=is_used)


def reachable_time_unused(link, judge):
    """The same of a neighbour to which no packet went."""
    yield from reachable_time(link, judge, is_used=False)


def silent_router(link, judge):
    """Packets go to the other router once the first one has failed (RFC 4861, 6.3.6 and 7.3.3)."""
    link.send(frames.ra())
    second(link, prf=3)
    compare(link, judge, FAR, before="the first one is used")
    link.packet(FAR)
    yield pace.UNTIL_UNREACHABLE
    compare(link, judge, FAR, after="the first one has failed")


def silent_target(link, judge):
    """A Redirect ends when its target has failed (RFC 4861, 7.3.3)."""
    link.send(frames.ra())
    link.send(frames.redirect(SECOND, FAR, tlla=SECOND_MAC))
    yield HEARING
    link.packet(FAR)
    yield pace.UNTIL_UNREACHABLE
    compare(link, judge, FAR, silent_target=SECOND)
    link.packet(FAR)
    yield pace.UNTIL_UNRESOLVED
    compare(link, judge, FAR, after="the target was not resolved")


def ends(link, judge):
    """An address is deprecated, then gone, and so are its prefix and its router. The kernel looks within a second after they end."""
    link.send(frames.ra(frames.prefix(valid=8, preferred=4), lifetime=8))
    for milliseconds, state in ((2600, "PREFERRED"), (3000, "DEPRECATED"), (4500, None)):
        yield milliseconds
        kernel, model = link.both("addresses")
        address = model.get("2001:db8::ff:fe00:1")
        assert (address.state if address else None) == state
        judge.compare_rows("addresses", (kernel, model), passed=milliseconds)
        for table in ("prefixes", "routers"):
            judge.compare_rows(table, link.both(table), passed=milliseconds)


SCENARIOS = {scenario.__name__: scenario for scenario in (
    resolution_fails, resolution_fails_by_retrans_timer, late_answer, packets_wait, probing, answered_probe, reachable_time, reachable_time_unused,
    silent_router, silent_target, ends)}


@pytest.fixture(scope="module")
def done(lab, stack):
    """The judges of the scenarios, and their errors, once all have been run."""
    links = dict(zip(SCENARIOS, lab.settled(len(SCENARIOS))))
    judges = {name: Judge(f"test_in_time[{name}]", stack.DEVIATIONS) for name in SCENARIOS}
    errors = lab.run({name: scenario(links[name], judges[name]) for name, scenario in SCENARIOS.items()})
    for link in links.values():
        link.close()
    return judges, errors


@pytest.mark.parametrize("name", SCENARIOS)
def test_in_time(done, name):
    judges, errors = done
    if name in errors:
        raise errors[name]
    judges[name].verdict()
