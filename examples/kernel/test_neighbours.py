"""The neighbour cache: each state, and each message that may change it (RFC 4861, 7.2.3, 7.2.5, 8.3 and appendix C)."""
import itertools

import pytest

import frames
import pace
import rfc
from link import HEARING

# What an advertisement says of its target's link-layer address: nothing, the one that is known, or another one.
MACS = {"none": None, "same": frames.PEER_MAC, "other": frames.OTHER_MAC}
ADVERTISEMENTS = [f"NA-S{solicited}-O{override}-R{router}-{mac}" for solicited in (0, 1) for override in (0, 1) for router in (0, 1) for mac in MACS]
OTHERS = [f"{kind}-{mac}" for kind in ("NS", "RS", "RA", "Redirect") for mac in ("same", "other")]
MESSAGES = ADVERTISEMENTS + OTHERS + ["packet"]
STATES = ["absent", "INCOMPLETE", "STALE", "REACHABLE", "DELAY"]
# A Retrans Timer that a router announces, in milliseconds.
LONG_RETRANS = 10 * rfc.RETRANS_TIMER
NEIGHBOUR = "fe80::5"
SOLICITED = {"solicited": 1, "override": 1, "tlla": frames.PEER_MAC}
BAD_ADVERTISEMENTS = {
    "good": frames.na(NEIGHBOUR, **SOLICITED),
    "hop limit 64": frames.na(NEIGHBOUR, **SOLICITED, hlim=64),
    "code 1": frames.na(NEIGHBOUR, **SOLICITED, code=1),
    "bad checksum": frames.na(NEIGHBOUR, **SOLICITED, cksum=1),
    "multicast target": frames.na("ff02::5", **SOLICITED, source=NEIGHBOUR),
    "multicast source": frames.na(NEIGHBOUR, **SOLICITED, source="ff02::5"),
    "solicited, to all nodes": frames.na(NEIGHBOUR, **SOLICITED, to=frames.ALL_NODES),
    "source is another node": frames.na(NEIGHBOUR, **SOLICITED, source=frames.PEER),
    "option of length 0": frames.na(NEIGHBOUR, 1, 1) / bytes.fromhex("0200020000000005"),
    "option past the end": frames.na(NEIGHBOUR, 1, 1) / bytes.fromhex("0203020000000005"),
    "TLLA of length 2": frames.na(NEIGHBOUR, 1, 1) / bytes.fromhex("0202020000000005" + "00" * 8),
    "SLLA in place of TLLA": frames.na(NEIGHBOUR, 1, 1) / bytes.fromhex("0101020000000005"),
    "two TLLA": frames.na(NEIGHBOUR, 1, 1) / bytes.fromhex("02010200000000050201020000000006"),
}
numbers = itertools.count(0x1000)


def message_of(name, neighbour):
    """Returns the message of a cell."""
    kind, *words = name.split("-")
    mac = MACS[words[-1]]
    if kind == "NA":
        solicited, override, router = (int(word[1]) for word in words[:3])
        return frames.na(neighbour, solicited, override, router, tlla=mac, to=frames.OWN if solicited else frames.ALL_NODES)
    if kind == "NS":
        return frames.ns(target="fe80::77", source=neighbour, mac=mac)  # of another target: it is not answered
    if kind == "RS":
        return frames.rs(neighbour, mac)
    if kind == "RA":
        return frames.ra(source=neighbour, mac=mac, lifetime=0)
    return frames.redirect(neighbour, f"2001:db8:9::{next(numbers):x}", tlla=mac)


def enter(link, neighbour):
    """Makes an entry that is STALE."""
    link.send(frames.ra(source=neighbour, mac=frames.PEER_MAC, lifetime=0))


def lead(link, neighbour, state):
    """Leads a new neighbour into a state: all but PROBE, for which time has to pass."""
    if state in ("INCOMPLETE", "REACHABLE"):
        link.packet(neighbour)
    if state == "REACHABLE":
        link.send(frames.na(neighbour, 1, 1, tlla=frames.PEER_MAC))
    if state in ("STALE", "DELAY"):
        enter(link, neighbour)
    if state == "DELAY":
        link.wait(HEARING)
        link.packet(neighbour)


def cell(link, judge, neighbour, state, name):
    """Does what a cell of the table says, and compares the entry before and after, and what is sent to it."""
    link.wait(HEARING)
    before, model = link.both("neighbour", neighbour)
    judge.compare("neighbour before", before, model, neighbour, state=state)
    assert (before.state if before else "absent") == state
    link.clear()
    if name == "packet":
        link.packet(neighbour)
    else:
        link.send(message_of(name, neighbour))
    link.wait(HEARING)
    judge.compare("neighbour", *link.both("neighbour", neighbour), neighbour, state=state, message=name)
    judge.compare("packets", *link.packets(neighbour), neighbour, state=state, message=name)
    link.forget(neighbour)


@pytest.fixture(scope="module")
def cached(settled):
    """A link with a router, which may redirect what goes off the link."""
    settled.send(frames.ra())
    settled.wait(100)
    return settled


@pytest.mark.parametrize("name", MESSAGES)
@pytest.mark.parametrize("state", STATES)
def test_cell(cached, judge, state, name):
    neighbour = f"fe80::{next(numbers):x}"
    lead(cached, neighbour, state)
    cell(cached, judge, neighbour, state, name)


@pytest.mark.parametrize("name", BAD_ADVERTISEMENTS)
def test_advertisement_of_a_neighbour(cached, judge, name):
    """Advertisements, good and bad, of a neighbour that is INCOMPLETE (RFC 4861, 7.1.2)."""
    cached.packet(NEIGHBOUR)
    cached.wait(HEARING)
    cached.clear()
    cached.send(BAD_ADVERTISEMENTS[name])
    cached.wait(HEARING)
    judge.compare("neighbour", *cached.both("neighbour", NEIGHBOUR), NEIGHBOUR, why=cached.model.why())
    judge.compare("packets", *cached.packets(NEIGHBOUR), NEIGHBOUR)
    cached.forget(NEIGHBOUR)


@pytest.fixture(scope="module")
def probed(cached):
    """Neighbours in PROBE, one for each message. A router announces a long RetransTimer, so that none fails before all were tried."""
    cached.send(frames.ra(retranstimer=LONG_RETRANS))
    neighbours = {name: f"fe80::{next(numbers):x}" for name in MESSAGES}
    for neighbour in neighbours.values():
        lead(cached, neighbour, "DELAY")
    cached.wait(pace.longest(rfc.DELAY_FIRST_PROBE_TIME))
    yield neighbours
    cached.send(frames.ra(retranstimer=rfc.RETRANS_TIMER))


@pytest.mark.parametrize("name", MESSAGES)
def test_probe_cell(cached, probed, judge, name):
    cell(cached, judge, probed[name], "PROBE", name)
