"""Duplicate address detection: what makes a tentative address a duplicate, and what doesn't (RFC 4862, 5.4)."""
import pytest

import frames
import pace
import rfc
from link import AMIDST, LONGEST_START

DETECTION = {"source": "::", "has_slla": False}
TO_ALL = {"solicited": 0, "override": 1, "tlla": frames.PEER_MAC, "to": frames.ALL_NODES}
CONFLICTS = {
    "advertisement to all nodes": frames.na(frames.OWN, **TO_ALL),
    "advertisement without TLLA": frames.na(frames.OWN, 0, 0, to=frames.ALL_NODES),
    "solicited advertisement": frames.na(frames.OWN, 1, 1, tlla=frames.PEER_MAC, source=frames.PEER),
    "solicited advertisement to all nodes": frames.na(frames.OWN, **{**TO_ALL, "solicited": 1}),
    "advertisement of another address": frames.na(frames.PEER, **TO_ALL),
    "advertisement with hop limit 64": frames.na(frames.OWN, **TO_ALL, hlim=64),
    "detection of another node": frames.ns(**DETECTION),
    "detection of another address": frames.ns(target=frames.PEER, **DETECTION),
    "detection with SLLA": frames.ns(source="::"),
    "detection to all nodes": frames.ns(**DETECTION, to=frames.ALL_NODES),
    "detection with hop limit 64": frames.ns(**DETECTION, hlim=64),
    "resolution by another node": frames.ns(),
}


def link_of(lab, packet_of=None, delay=AMIDST, **options):
    """Returns a link on which a frame arrives in the detection."""
    link = lab.link(**options)
    if packet_of:
        link.plan(delay, packet_of)
    return link


@pytest.fixture(scope="module")
def tried(lab):
    """A link for each test, all side by side, whose detections have ended."""
    links = {name: link_of(lab, lambda _, packet=packet: packet) for name, packet in CONFLICTS.items()}
    links["undisturbed"] = link_of(lab)
    links["three solicitations"] = link_of(lab, transmits=3)
    links["conflict after two of three"] = link_of(lab, lambda _: CONFLICTS["detection of another node"], rfc.RETRANS_TIMER + AMIDST, transmits=3)
    links["looped back"] = link_of(lab, lambda own: own)
    links["looped back, with nonce"] = link_of(lab, lambda own: own, is_plain=False)
    assert lab.wait(LONGEST_START, lambda: all(link.model for link in links.values())), "there is a link without a detection"
    lab.wait(pace.longest(3 * rfc.RETRANS_TIMER))
    yield links
    for link in links.values():
        link.close()


def conclude(link, judge, **event):
    """Compares how a detection ended, and what was sent for it."""
    judge.compare_rows("address", link.both("addresses"), **event)
    kernel, model = link.messages(frames.NS, frames.NA)
    judge.compare("detection", [frame for _, frame in kernel], [frame for _, frame in model], **event)


@pytest.mark.parametrize("name", CONFLICTS)
def test_conflict(tried, judge, name):
    conclude(tried[name], judge, is_to_tentative=name == "solicited advertisement")


def test_undisturbed(tried, judge):
    conclude(tried["undisturbed"], judge)


def test_three_solicitations(tried, judge):
    conclude(tried["three solicitations"], judge)
    for who, sent in zip(("kernel", "model"), tried["three solicitations"].messages(frames.NS)):
        pace.require(who, sent, 2, rfc.RETRANS_TIMER)


def test_conflict_after_two_of_three(tried, judge):
    conclude(tried["conflict after two of three"], judge)


def test_looped_back(tried, judge):
    conclude(tried["looped back"], judge, looped_back="without a nonce")


def test_looped_back_with_nonce(tried, judge):
    conclude(tried["looped back, with nonce"], judge, looped_back="with its nonce")
