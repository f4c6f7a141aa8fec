"""Neighbor Solicitations, good and bad: what is answered, and what becomes of the asker's entry (RFC 4861, 7.1.1, 7.2.3 and 7.2.4)."""
import pytest

import frames

# Milliseconds in which an answer is sent: none of these is delayed.
AT_ONCE = 60
SLLA = "0101020000000005"
ASKS = {
    "multicast": {},
    "unicast": {"to": frames.OWN},
    "without SLLA": {"source": "fe80::a1", "has_slla": False},
    "without SLLA, of a known asker": {"has_slla": False},
    "unicast, without SLLA": {"source": "fe80::a2", "has_slla": False, "to": frames.OWN},
    "of another target": {"source": "fe80::a3", "target": "fe80::2"},
    "of a multicast target": {"source": "fe80::a4", "target": "ff02::1"},
    "hop limit 64": {"source": "fe80::a5", "hlim": 64},
    "code 1": {"source": "fe80::a6", "code": 1},
    "bad checksum": {"source": "fe80::a7", "cksum": 1},
    "reserved bits": {"source": "fe80::a8", "res": 0xFFFFFFFF},
    "detection": {"source": "::", "has_slla": False},
    "detection, with SLLA": {"source": "::"},
    "detection, by unicast": {"source": "::", "has_slla": False, "to": frames.OWN},
    "from a multicast address": {"source": "ff02::5"},
    "from the loopback address": {"source": "::1"},
    "from the address itself": {"source": frames.OWN},
    "from off the link": {"source": "2001:db8:9::1"},
    "SLLA of a group": {"source": "fe80::a9", "mac": "03:00:00:00:00:05"},
    "SLLA of zeros": {"source": "fe80::aa:0", "mac": "00:00:00:00:00:00"},
}
OPTIONS = {
    "option of length 0": "0100020000000000",
    "option past the end": "0103020000000005",
    "a byte behind the message": "01",
    "unknown option": "f001000000000000",
    "unknown option, then SLLA": "f001000000000000" + SLLA,
    "SLLA of length 2": "0102020000000005" + "00" * 8,
    "two SLLA": SLLA + "0101020000000006",
    "TLLA": "0201020000000005",
}


def ask(link, judge, frame, source):
    """Sends a solicitation, and compares what is sent for it, and the asker's entry."""
    link.clear()
    link.send(frame)
    link.wait(AT_ONCE)
    kernel, model = link.messages(frames.NA, frames.NS)
    event = {"frame": bytes(frame), "why": link.model.why()}
    judge.compare("answer", [frame for _, frame in kernel], [frame for _, frame in model], **event)
    judge.compare("asker", *link.both("neighbour", source), source, **event)
    link.forget(source)


@pytest.mark.parametrize("name", ASKS)
def test_ask(settled, judge, name):
    if "known asker" in name:
        settled.send(frames.ra(source=frames.PEER, mac=frames.PEER_MAC, lifetime=0))
    ask(settled, judge, frames.ns(**ASKS[name]), ASKS[name].get("source", frames.PEER))


@pytest.mark.parametrize("name", OPTIONS)
def test_option(settled, judge, name):
    source = f"fe80::b{list(OPTIONS).index(name)}"
    ask(settled, judge, frames.ns(source=source, has_slla=False) / bytes.fromhex(OPTIONS[name]), source)
