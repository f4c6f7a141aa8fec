"""What a host sends when it starts, and how long it solicits routers (RFC 4861, 6.3.7; RFC 4862, 5.4.2)."""
import pytest

import clock
import frames
import pace
import rfc
from link import LONGEST_START

# Milliseconds: the detection, and four solicitations whose gaps double each time (RFC 7559, 2).
ALL_SOLICITATIONS = pace.longest(rfc.RETRANS_TIMER + (1 + 2 + 4) * rfc.RTR_SOLICITATION_INTERVAL * (1 + rfc.RAND))


@pytest.fixture(scope="module")
def started(lab):
    """Links that have solicited routers for long enough."""
    assert lab.wait(LONGEST_START, lambda: all(link.model for link in lab.patient.values())), "there is a link without a detection"
    first = max(link.sent[0][0] for link in lab.patient.values())
    lab.wait(first + ALL_SOLICITATIONS - clock.now())
    return lab.patient


def solicitations(link, judge, **event):
    """Compares the Router Solicitations, but for their times."""
    kernel, model = link.messages(frames.RS)
    judge.compare("router solicitations", [frame for _, frame in kernel], [frame for _, frame in model], **event)
    return kernel, model


def test_solicitations(started, judge):
    kernel, model = solicitations(started["alone"], judge)
    gap, count = rfc.RTR_SOLICITATION_INTERVAL, rfc.MAX_RTR_SOLICITATIONS - 1
    pace.require("model", model, count, gap)
    pace.require("kernel", kernel, count, gap * (1 - rfc.RAND), gap * (1 + rfc.RAND))


def test_first_solicitation(started, judge):
    """It is sent when the address is assigned: its detection was delayed already."""
    kernel, model = started["alone"].messages(frames.NS, frames.RS)
    judge.compare("messages", [frame for _, frame in kernel[:2]], [frame for _, frame in model[:2]])
    for sent in (kernel, model):
        assert pace.is_within(sent[1][0] - sent[0][0], rfc.RETRANS_TIMER, rfc.RETRANS_TIMER + rfc.MAX_RTR_SOLICITATION_DELAY)


def test_usual_settings(started, judge):
    link = started["usual settings"]
    kernel, model = link.messages(frames.NS)
    judge.compare("detection", [frame for _, frame in kernel], [frame for _, frame in model])
    solicitations(link, judge)


def test_router_heard(started, judge):
    solicitations(started["router"], judge, router_lifetime=1800)


def test_no_router_heard(started, judge):
    solicitations(started["no router"], judge, router_lifetime=0)


def test_router_heard_early(started, judge):
    link = started["early router"]
    solicitations(link, judge)
    judge.compare_rows("routers", link.both("routers"), while_tentative=True)
