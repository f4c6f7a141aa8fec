"""rfc: the numbers of the RFCs that the tests name, each with its section. Times are in milliseconds, lifetimes in seconds."""

# RFC 4861, 10: host constants.
MAX_RTR_SOLICITATION_DELAY = 1000
RTR_SOLICITATION_INTERVAL = 4000
MAX_RTR_SOLICITATIONS = 3

# RFC 4861, 10: node constants.
MAX_MULTICAST_SOLICIT = 3
MAX_UNICAST_SOLICIT = 3
REACHABLE_TIME = 30000
RETRANS_TIMER = 1000
DELAY_FIRST_PROBE_TIME = 5000
MIN_RANDOM_FACTOR = 0.5
MAX_RANDOM_FACTOR = 1.5

# RFC 8415, 15, by which RFC 7559, 2, has Router Solicitations sent: a gap is shorter or longer by up to this part of it.
RAND = 0.1

# RFC 4861, 4.6.2: a lifetime without an end.
INFINITY = 0xFFFFFFFF

# RFC 4861, 7.1: the hop limit of a message that no router has forwarded.
HOP_LIMIT = 255

# RFC 4862, 5.1: how many solicitations a detection sends.
DUP_ADDR_DETECT_TRANSMITS = 1

# RFC 4862, 5.5.3 e: below two hours an advertisement does not shorten a valid lifetime.
TWO_HOURS = 7200


def reachable_range(base):
    """Returns the least and the greatest ReachableTime of a BaseReachableTime (RFC 4861, 6.3.2)."""
    return int(base * MIN_RANDOM_FACTOR), int(base * MAX_RANDOM_FACTOR)
