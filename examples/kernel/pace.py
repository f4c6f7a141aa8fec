"""pace: whether what is sent, or what ends, is on time: at the moment that an RFC names, or in a range of it."""
import rfc

# A timer of Linux is late by up to an eighth of its time, the width of a slot of its wheel. RFC 4861, 7.2.2, has "approximately every RetransTimer
# milliseconds".
WHEEL = 1 / 8
# Milliseconds that a busy machine adds. A message that is late makes the gap behind it shorter.
EARLY, LATE = 50, 100


def longest(wanted):
    """Returns the greatest time that may pass where so many milliseconds are wanted."""
    return int(wanted * (1 + WHEEL)) + LATE


def is_within(passed, least, most):
    """Returns true if the time that passed is in a range, or later by what a timer may be late."""
    return least - EARLY <= passed <= longest(most)


def require(who, sent, count, least, most=None):
    """Requires that there are so many gaps between messages, each from `least` to `most` milliseconds, or of `least`."""
    gaps = [later - earlier for (earlier, _), (later, _) in zip(sent, sent[1:])]
    assert len(gaps) == count, f"the {who} has the gaps {gaps}, and not {count}"
    assert all(is_within(gap, least, most or least) for gap in gaps), f"the {who} has the gaps {gaps}, and not from {least} to {most or least} ms"


# Milliseconds in which an address that an advertisement to all nodes formed is assigned: after a random delay, and its detection (RFC 4862, 5.4.2).
LONGEST_DETECTION = longest(rfc.MAX_RTR_SOLICITATION_DELAY + rfc.DUP_ADDR_DETECT_TRANSMITS * rfc.RETRANS_TIMER)
# Milliseconds after which a neighbour that does not answer has failed: DELAY and PROBE (RFC 4861, 7.3.3), and a resolution (7.2.2).
UNTIL_UNREACHABLE = longest(rfc.DELAY_FIRST_PROBE_TIME + rfc.MAX_UNICAST_SOLICIT * rfc.RETRANS_TIMER)
UNTIL_UNRESOLVED = longest(rfc.MAX_MULTICAST_SOLICIT * rfc.RETRANS_TIMER)
