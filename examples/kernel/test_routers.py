"""Default routers, Redirects, and the next hop of a packet (RFC 4861, 5.2, 6.3.6, 7.2.5 and 8; RFC 4191, 3.2). Those that take time are in
test_times."""
import pytest

import frames
from link import HEARING

SECOND, SECOND_MAC = "fe80::fd", "02:00:00:00:00:fd"
THIRD, THIRD_MAC = "fe80::fc", "02:00:00:00:00:fc"
FAR, ALSO_FAR = "2001:db8:7::1", "2001:db8:7::2"
REDIRECTS = {
    "to another router": frames.redirect(SECOND, FAR, tlla=SECOND_MAC),
    "to the destination": frames.redirect(FAR, FAR, tlla=frames.OTHER_MAC),
    "without TLLA": frames.redirect(SECOND, FAR),
    "of a router that is not used": frames.redirect(THIRD, FAR, source=SECOND, mac=SECOND_MAC, tlla=THIRD_MAC),
    "of a node that is no router": frames.redirect(THIRD, FAR, source=frames.PEER, mac=frames.PEER_MAC, tlla=THIRD_MAC),
    "to a target off the link": frames.redirect("2001:db8:8::1", FAR, tlla=SECOND_MAC),
    "of a group": frames.redirect(SECOND, "ff0e::7", tlla=SECOND_MAC),
    "hop limit 64": frames.redirect(SECOND, FAR, tlla=SECOND_MAC, hlim=64),
    "source off the link": frames.redirect(SECOND, FAR, source="2001:db8::fe", tlla=SECOND_MAC),
}
OTHERS = ("next hops", "preferences", "router flag off", "router flag off, no override", "no router")


def second(link, **fields):
    """A second router advertises itself."""
    link.send(frames.ra(source=SECOND, mac=SECOND_MAC, **fields))


def compare(link, judge, *destinations, **event):
    """Compares the list of routers, and where packets to the destinations go."""
    link.wait(HEARING)
    judge.compare_rows("routers", link.both("routers"), **event)
    for destination in destinations:
        judge.compare("next hop", *link.both("next_hop", destination), destination, **event)


@pytest.fixture(scope="module")
def links(lab):
    """A new link for each test, with a router that is a neighbour."""
    links = dict(zip((*OTHERS, *REDIRECTS), lab.settled(len(OTHERS) + len(REDIRECTS))))
    for link in links.values():
        link.send(frames.ra(frames.prefix(autonomous=0)))  # no address is formed, which might be the source of a packet
    yield links
    for link in links.values():
        link.close()


def test_next_hops(links, judge):
    link = links["next hops"]
    compare(link, judge, FAR, "2001:db8::7", "fe80::7", "2001:db8:0:1::7")
    link.send(frames.ra(lifetime=0))
    compare(link, judge, FAR, "2001:db8::7", after="lifetime 0")


def test_preferences(links, judge):
    link = links["preferences"]
    second(link, prf=1)
    compare(link, judge, FAR, second="high")
    second(link, prf=3)
    compare(link, judge, FAR, second="low")
    second(link, prf=1)
    second(link, lifetime=0)
    compare(link, judge, FAR, second="gone")


def test_router_flag_off(links, judge):
    """A router that says it is none leaves the list (RFC 4861, 7.2.5)."""
    link = links["router flag off"]
    second(link)
    link.send(frames.na(frames.ROUTER, 0, 1, router=0, tlla=frames.ROUTER_MAC, to=frames.ALL_NODES))
    compare(link, judge, FAR)
    judge.compare_rows("neighbours", link.both("neighbours"))


def test_router_flag_off_without_override(links, judge):
    """An advertisement that updates no entry takes no router away (RFC 4861, 7.2.5)."""
    link = links["router flag off, no override"]
    link.send(frames.na(frames.ROUTER, 0, 0, router=0, tlla=frames.OTHER_MAC, to=frames.ALL_NODES))
    compare(link, judge, FAR)
    judge.compare_rows("neighbours", link.both("neighbours"))


def test_no_router(links, judge):
    """A packet without a next hop is lost."""
    link = links["no router"]
    link.send(frames.ra(lifetime=0))
    link.wait(HEARING)
    judge.compare("has a next hop", *link.packet(FAR), FAR)


@pytest.mark.parametrize("name", REDIRECTS)
def test_redirect(links, judge, name):
    link = links[name]
    if name == "of a router that is not used":
        second(link, prf=3)
        link.wait(HEARING)
    event = {"frame": bytes(REDIRECTS[name]), "first_hop": frames.ROUTER, "routers": link.stack.routers(), "before": link.stack.neighbours()}
    link.send(REDIRECTS[name])
    compare(link, judge, FAR, ALSO_FAR, **event)
    judge.compare_rows("neighbours", link.both("neighbours"), **event)
    link.clear()
    link.packet(FAR)
    link.wait(HEARING)
    judge.compare("packets", *link.packets(FAR), FAR, **event)
