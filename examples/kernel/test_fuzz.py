"""Messages and packets at random: the neighbour caches are compared after each; and Router Advertisements at random: addresses, prefixes and routers
are compared after each. A difference fails the test unless a deviation of the list says it; the two are made alike then, and go on."""
import itertools
import random

import pytest

import clock
import frames
import pace
import rfc
from judge import Judge
from link import HEARING

# How many neighbours are new at a time, and for how many steps. These take less than DELAY, the least ReachableTime, and a resolution by a long
# RetransTimer, since what ends by time is not compared here.
NEIGHBOURS, STEPS = 4, 40
LONGEST_STEPS = rfc.DELAY_FIRST_PROBE_TIME - 1000
LONG_RETRANS = 10 * rfc.RETRANS_TIMER
MACS = ("02:00:00:00:00:b1", "02:00:00:00:00:b2")
ROUTERS = ((frames.ROUTER, frames.ROUTER_MAC), ("fe80::fd", "02:00:00:00:00:fd"))
LIFETIMES = (0, 1, 60, 3600, rfc.TWO_HOURS - 1, rfc.TWO_HOURS, rfc.TWO_HOURS + 1, 9000, 86400, rfc.INFINITY)
ROUTER_LIFETIMES = (0, 5, 1800, 9000, 65535)
PREFIXES = (("2001:db8:1::", 64), ("2001:db8:2::", 64), ("2001:db8:3::", 64), ("2001:db8:4::", 48), ("2001:db8:5::", 72), ("fe80::", 64),
            ("ff05::", 64))


def message_of(draw, neighbour, far):
    """Returns a message at random that concerns a neighbour, with a name. `far` is a destination that was never redirected."""
    kind = draw.choice(("NA", "NA", "NA", "NS", "NS for another", "RS", "RA", "Redirect"))
    mac = draw.choice(MACS)
    if kind == "NA":
        solicited, override, router = (draw.getrandbits(1) for _ in range(3))
        tlla = draw.choice((mac, mac, None))
        to = frames.OWN if solicited else frames.ALL_NODES
        return f"NA S{solicited} O{override} R{router} {tlla}", frames.na(neighbour, solicited, override, router, tlla=tlla, to=to)
    if kind == "NS":
        has_slla = draw.random() < 0.5
        return f"NS {mac if has_slla else None}", frames.ns(source=neighbour, mac=mac, to=frames.OWN, has_slla=has_slla)
    if kind == "NS for another":
        return f"{kind} {mac}", frames.ns(target="fe80::77", source=neighbour, mac=mac)
    if kind == "RS":
        return f"RS {mac}", frames.rs(neighbour, mac)
    if kind == "RA":
        return f"RA {mac}", frames.ra(source=neighbour, mac=mac, lifetime=draw.choice((0, 1800)))
    return f"Redirect {mac}", frames.redirect(neighbour, far, source=draw.choice((frames.ROUTER, neighbour)), tlla=mac)


def act(link, draw, neighbour, far):
    """Sends a message or a packet at random that concerns a neighbour. Returns its name, and its frame if it has one."""
    if draw.random() < 0.2:
        link.packet(neighbour)
        return "packet", b""
    name, frame = message_of(draw, neighbour, far)
    link.send(frame)
    return name, bytes(frame)


@pytest.fixture(scope="module")
def link(lab):
    [link] = lab.settled(1)
    link.send(frames.ra(retranstimer=LONG_RETRANS))
    yield link
    link.close()


def forget(link, neighbours):
    """Forgets neighbours, as routers too."""
    for neighbour in neighbours:
        link.send(frames.ra(source=neighbour, mac=MACS[0], lifetime=0))
        link.forget(neighbour)


def test_random_messages(link, stack, seed, steps):
    draw, judge, names, neighbours, left, begun = random.Random(seed), Judge("", stack.DEVIATIONS, is_random=True), itertools.count(), [], 0, 0
    for step in range(steps):
        if left == 0 or clock.now() > begun + LONGEST_STEPS:
            forget(link, neighbours)
            left, begun, neighbours = STEPS, clock.now(), [f"fe80::{seed:x}:{next(names):x}" for _ in range(NEIGHBOURS)]
        left -= 1
        neighbour, far = draw.choice(neighbours), f"2001:db8:{seed:x}::{step:x}"
        before, event = link.stack.neighbours(), {"first_hop": link.model.next_hop(clock.now(), far), "routers": link.stack.routers()}
        event["message"], event["frame"] = act(link, draw, neighbour, far)
        event.update(before=before, state=before[neighbour].state if neighbour in before else None)
        link.wait(HEARING)
        for address in judge.compare_settled(link, "neighbours", only=neighbours, **event):
            link.forget(address)
    judge.verdict()
    assert judge.compared >= steps


def advertisement_of(draw):
    """Returns a Router Advertisement at random."""
    source, mac = draw.choice(ROUTERS)
    options = []
    for network, bits in draw.sample(PREFIXES, draw.choice((1, 1, 2))):
        valid, preferred = draw.choice(LIFETIMES), draw.choice(LIFETIMES)
        preferred = min(preferred, valid) if draw.random() < 0.7 else preferred
        options.append(frames.prefix(network, bits, draw.getrandbits(1), draw.getrandbits(1), valid, preferred))
    return frames.ra(*options, source=source, mac=mac, lifetime=draw.choice(ROUTER_LIFETIMES), prf=draw.choice((0, 1, 3)))


def make_alike(link, frame):
    """Announces the prefixes of which an advertisement says lifetimes that only the model takes, with others that both take."""
    for network, bits in PREFIXES:
        if any(preferred > valid for valid, preferred in frames.lifetimes_on_link(frame, f"{network}/{bits}")):
            link.send(frames.ra(frames.prefix(network, bits, autonomous=0, valid=9000, preferred=0), lifetime=0, source="fe80::fc"))


def advertise(link, draw, judge, steps):
    """Sends as many Router Advertisements at random, and compares the tables after each: a scenario."""
    for _ in range(steps):
        frame, before = bytes(advertisement_of(draw)), link.stack.prefixes()
        link.send(frame)
        yield pace.longest(rfc.RETRANS_TIMER) if draw.random() < 0.1 else HEARING
        for table in ("addresses", "routers", "prefixes"):
            judge.compare_settled(link, table, settling=pace.LONGEST_DETECTION, frame=frame, before=before, passed=link.passed())
        make_alike(link, frame)


@pytest.fixture(scope="module")
def advertised(lab, stack, seeds, steps):
    """The judges of Router Advertisements at random, for each seed, and the errors."""
    links = dict(zip(seeds, lab.settled(len(seeds))))
    judges = {seed: Judge("", stack.DEVIATIONS, is_random=True) for seed in seeds}
    errors = lab.run({seed: advertise(links[seed], random.Random(seed), judges[seed], steps // 4) for seed in seeds})
    for link in links.values():
        link.close()
    return judges, errors


def test_random_advertisements(advertised, seed, steps):
    judges, errors = advertised
    if seed in errors:
        raise errors[seed]
    judges[seed].verdict()
    assert judges[seed].compared >= steps // 4
