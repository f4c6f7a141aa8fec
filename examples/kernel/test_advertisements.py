"""Router Advertisements, good and bad: what a host takes of them (RFC 4861, 6.1.2 and 6.3.4; RFC 4862, 5.5.3)."""
import pytest

import frames
import pace
import rfc

SLLA = "01010200000000fe"
ADVERTISEMENTS = {
    "prefix": frames.ra(frames.prefix()),
    "no prefix": frames.ra(),
    "two prefixes": frames.ra(frames.prefix(), frames.prefix("2001:db8:1::")),
    "one prefix twice": frames.ra(frames.prefix(), frames.prefix(valid=9000, preferred=8000)),
    "prefix, not on the link": frames.ra(frames.prefix(on_link=0)),
    "prefix, not for addresses": frames.ra(frames.prefix(autonomous=0)),
    "prefix of 48 bits": frames.ra(frames.prefix(bits=48)),
    "prefix of 72 bits": frames.ra(frames.prefix(bits=72)),
    "link-local prefix": frames.ra(frames.prefix("fe80::")),
    "prefix of a group": frames.ra(frames.prefix("ff05::")),
    "prefix without an end": frames.ra(frames.prefix(valid=rfc.INFINITY, preferred=rfc.INFINITY)),
    "prefix of lifetime 0": frames.ra(frames.prefix(valid=0, preferred=0)),
    "prefix, preferred above valid": frames.ra(frames.prefix(valid=3600, preferred=7200)),
    "router lifetime 0": frames.ra(frames.prefix(), lifetime=0),
    "router lifetime 65535": frames.ra(lifetime=65535),
    "preference high": frames.ra(prf=1),
    "preference low": frames.ra(prf=3),
    "preference reserved": frames.ra(prf=2),
    "MTU 1400": frames.ra(frames.mtu(1400)),
    "MTU 1279": frames.ra(frames.mtu(1279)),
    "MTU 1501": frames.ra(frames.mtu(1501)),
    "Cur Hop Limit 5": frames.ra(chlim=5),
    "Retrans Timer 200": frames.ra(frames.prefix(), retranstimer=200),
    "Retrans Timer 1": frames.ra(retranstimer=1),
    "Reachable Time 1000": frames.ra(reachabletime=1000),
    "Reachable Time above an hour": frames.ra(reachabletime=4000000),
    "without SLLA": frames.ra(frames.prefix(), has_slla=False),
    "hop limit 64": frames.ra(frames.prefix(), hlim=64),
    "source off the link": frames.ra(frames.prefix(), source="2001:db8::fe"),
    "source of the host itself": frames.ra(frames.prefix(), source=frames.OWN),
    "code 1": frames.ra(frames.prefix(), code=1),
    "bad checksum": frames.ra(frames.prefix(), cksum=1),
    "option of length 0": frames.ra(has_slla=False) / bytes.fromhex(SLLA + "0500000000000578"),
    "option past the end": frames.ra(has_slla=False) / bytes.fromhex(SLLA + "0502000000000578"),
    "unknown option": frames.ra(has_slla=False) / bytes.fromhex("f001000000000000" + SLLA),
}
TABLES = ("addresses", "routers", "prefixes", "neighbours")


@pytest.fixture(scope="module")
def advertised(lab):
    """A link for each advertisement, all side by side, on which the addresses that it forms are assigned."""
    links = dict(zip(ADVERTISEMENTS, lab.settled(len(ADVERTISEMENTS))))
    for name, link in links.items():
        link.send(ADVERTISEMENTS[name])
    lab.wait(pace.LONGEST_DETECTION)
    yield links
    for link in links.values():
        link.close()


@pytest.mark.parametrize("name", ADVERTISEMENTS)
def test_advertisement(advertised, judge, name):
    link, event = advertised[name], {"frame": bytes(ADVERTISEMENTS[name]), "before": {}, "passed": advertised[name].passed()}
    for table in TABLES:
        judge.compare_rows(table, link.both(table), **event)
    judge.compare("parameters", *link.both("parameters"), **event)
    # Sorted, since each detection begins after a random delay of its own.
    kernel, model = (sorted(frame for _, frame in sent) for sent in link.messages(frames.NS))
    judge.compare("detection", kernel, model, **event)
