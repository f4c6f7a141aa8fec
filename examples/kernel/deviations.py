"""deviations: the list of all that the Linux kernel does otherwise than the model, each with the sentence of an RFC that decides it. A difference
that no deviation of the list says fails its test, and so does a deviation that no longer shows in a test for which it is listed. README.md has the
list as a table, which test_list compares with it."""
from dataclasses import dataclass
from enum import Enum
from typing import Callable, Tuple

import explain


class Right(Enum):
    """Which of the two does what the sentence says. BOTH: it allows both, or the RFCs leave it open."""
    KERNEL = "the kernel"
    MODEL = "the model"
    BOTH = "both"


@dataclass(frozen=True)
class Deviation:
    """What the kernel does otherwise than the model. `explains` returns true for a difference in one of the `subjects` that is exactly this
    deviation. `shown_by` has the tests in which it has to show."""
    name: str
    kernel: str
    model: str
    section: str
    sentence: str
    right: Right
    shown_by: Tuple[str, ...]
    subjects: Tuple[str, ...]
    explains: Callable


# The messages that give an INCOMPLETE entry its link-layer address without a confirmation.
RELEASING = [f"NA-S0-O{override}-R{router}-{mac}" for override in (0, 1) for router in (0, 1) for mac in ("same", "other")]
RELEASING += [f"{kind}-{mac}" for kind in ("RA", "Redirect") for mac in ("same", "other")]

LIST = (
    Deviation(
        name="a nonce in detection",
        kernel="a detection has a nonce, unless the setting `enhanced_dad` is 0",
        model="it has none: RFC 7527 is left out",
        section="RFC 7527, 4.1",
        sentence="the sender MUST generate a random nonce associated with the interface address, MUST store the nonce internally, and MUST include"
                 " the nonce in the Nonce option included in the NS(DAD)",
        right=Right.BOTH,
        shown_by=("test_usual_settings", "test_looped_back_with_nonce"),
        subjects=("detection",),
        explains=explain.is_nonce),
    Deviation(
        name="its own detection is known",
        kernel="a detection that the link sends back is known by its nonce: the address is assigned",
        model="each solicitation that arrives is another node's: the address is a duplicate",
        section="RFC 4862, 5.4.3",
        sentence="If the solicitation is from the node itself (because the node loops back multicast packets), the solicitation does not indicate "
                 "the presence of a duplicate address.",
        right=Right.KERNEL,
        shown_by=("test_looped_back_with_nonce",),
        subjects=("address",),
        explains=explain.is_own_nonce_known),
    Deviation(
        name="a tentative destination",
        kernel="an advertisement that is sent to the tentative address itself is discarded",
        model="it is heard, and makes the address a duplicate",
        section="RFC 4862, 5.4",
        sentence="Other packets addressed to the tentative address should be silently discarded.",
        right=Right.KERNEL,
        shown_by=("test_conflict[solicited advertisement]",),
        subjects=("address",),
        explains=explain.is_discarded_while_tentative),
    Deviation(
        name="an advertisement in detection",
        kernel="a Router Advertisement is taken while the link-local address is tentative",
        model="it is dropped until that address is assigned",
        section="RFC 4861, 6.3.4",
        sentence="On receipt of a valid Router Advertisement, a host extracts the source address of the packet and does the following:",
        right=Right.KERNEL,
        shown_by=("test_router_heard_early",),
        subjects=("routers",),
        explains=explain.is_heard_early),
    Deviation(
        name="routers are solicited on",
        kernel="Router Solicitations go on, with gaps that double, until a router is heard (RFC 7559), unless the setting `router_solicitations`"
               " is 3",
        model="there are three",
        section="RFC 4861, 6.3.7",
        sentence="a host SHOULD transmit up to MAX_RTR_SOLICITATIONS Router Solicitation messages, each separated by at least "
                 "RTR_SOLICITATION_INTERVAL seconds.",
        right=Right.BOTH,
        shown_by=("test_usual_settings",),
        subjects=("router solicitations",),
        explains=explain.is_solicited_on),
    Deviation(
        name="no router ends the solicitations",
        kernel="an advertisement of router lifetime 0 ends the Router Solicitations",
        model="they go on up to three",
        section="RFC 4861, 6.3.7",
        sentence="Once the host sends a Router Solicitation, and receives a valid Router Advertisement with a non-zero Router Lifetime, the host "
                 "MUST desist from sending additional solicitations on that interface",
        right=Right.MODEL,
        shown_by=("test_no_router_heard",),
        subjects=("router solicitations",),
        explains=explain.is_solicited_no_more),
    Deviation(
        name="its own advertisement",
        kernel="a Router Advertisement whose source is the host's own address is dropped, unless the setting `accept_ra_from_local` is 1",
        model="the host lists itself, unless it has the policy `self`",
        section="RFC 4861, 6.1.2",
        sentence="An advertisement that passes the validity checks is called a \"valid advertisement\".",
        right=Right.BOTH,
        shown_by=("test_advertisement[source of the host itself]",),
        subjects=("routers",),
        explains=explain.is_own_advertisement),
    Deviation(
        name="an option is passed over",
        kernel="a Prefix Information option whose preferred lifetime is above the valid one is passed over whole: its prefix is not entered, "
               "changed or withdrawn",
        model="it forms no address, and the flag L is heeded",
        section="RFC 4861, 6.3.4",
        sentence="If the prefix is not already present in the Prefix List, and the Prefix Information option's Valid Lifetime field is non-zero, "
                 "create a new entry for the prefix and initialize its invalidation timer to the Valid Lifetime value in the Prefix Information "
                 "option.",
        right=Right.MODEL,
        shown_by=("test_advertisement[prefix, preferred above valid]", "test_renewal[86400/3600-1800/3600]"),
        subjects=("prefixes",),
        explains=explain.is_option_passed_over),
    Deviation(
        name="a short Retrans Timer",
        kernel="a Retrans Timer below 10 ms is kept as 10 ms, rounded down to ticks of its clock",
        model="it is taken as it is",
        section="RFC 4861, 6.3.4",
        sentence="The RetransTimer variable SHOULD be copied from the Retrans Timer field, if the received value is non-zero.",
        right=Right.MODEL,
        shown_by=("test_advertisement[Retrans Timer 1]",),
        subjects=("parameters",),
        explains=explain.is_retrans_timer_raised),
    Deviation(
        name="an answer without TLLA",
        kernel="the answer to a unicast solicitation has no Target Link-Layer Address, and so no flag Override, unless the setting `force_tllao`"
               " is 1",
        model="each answer has both",
        section="RFC 4861, 7.2.4",
        sentence="If the solicitation's IP Destination Address is not a multicast address, the Target Link-Layer Address option MAY be omitted",
        right=Right.BOTH,
        shown_by=("test_ask[unicast]",),
        subjects=("answer",),
        explains=explain.is_answered_without_tlla),
    Deviation(
        name="an asker without SLLA",
        kernel="a multicast solicitation without a Source Link-Layer Address, of an asker that is no neighbour, is not answered",
        model="the asker is solicited, and answered then, unless the node has the policy `strict`",
        section="RFC 4861, 7.2.4",
        sentence="In such situations, a node will first have to use Neighbor Discovery to determine the link-layer address of its neighbor (i.e., "
                 "send out a multicast Neighbor Solicitation).",
        right=Right.MODEL,
        shown_by=("test_ask[without SLLA]", "test_option[unknown option]", "test_option[SLLA of length 2]", "test_option[TLLA]"),
        subjects=("answer", "asker"),
        explains=explain.is_asker_not_resolved),
    Deviation(
        name="the loopback address",
        kernel="a solicitation from ::1 is dropped",
        model="it is answered to ::1, on the link, unless the node has the policy `strict`",
        section="RFC 4291, 2.5.3",
        sentence="An IPv6 packet with a destination address of loopback must never be sent outside of a single node and must never be forwarded by"
                 " an IPv6 router.",
        right=Right.KERNEL,
        shown_by=("test_ask[from the loopback address]",),
        subjects=("answer", "asker"),
        explains=explain.is_from_loopback),
    Deviation(
        name="what waited is a use",
        kernel="an INCOMPLETE entry that gets a link-layer address without confirmation is in DELAY, since the packets that waited are sent then",
        model="it is STALE: the packets were sent by the use that began the resolution",
        section="RFC 4861, 7.2.5",
        sentence="If the advertisement's Solicited flag is set, the state of the entry is set to REACHABLE; otherwise, it is set to STALE.",
        right=Right.BOTH,
        shown_by=tuple(f"test_cell[INCOMPLETE-{message}]" for message in RELEASING),
        subjects=("neighbour", "neighbours"),
        explains=explain.is_released_as_use),
    Deviation(
        name="a longer queue",
        kernel="all packets that wait for a neighbour are kept, up to some 200 KB",
        model="three are kept, unless another number is asked for",
        section="RFC 4861, 7.2.2",
        sentence="The queue MUST hold at least one packet, and MAY contain more.",
        right=Right.BOTH,
        shown_by=("test_in_time[packets_wait]",),
        subjects=("packets that waited",),
        explains=explain.is_queue_longer),
    Deviation(
        name="REACHABLE, then DELAY",
        kernel="an entry whose ReachableTime ends within 5 s after a packet to it, or after its confirmation, is in DELAY, and is probed",
        model="it is STALE, and is probed only after a further packet",
        section="RFC 4861, 7.3.3",
        sentence="When ReachableTime milliseconds have passed since receipt of the last reachability confirmation for a neighbor, the Neighbor "
                 "Cache entry's state changes from REACHABLE to STALE.",
        right=Right.MODEL,
        shown_by=("test_in_time[reachable_time]", "test_in_time[reachable_time_unused]"),
        subjects=("state behind REACHABLE",),
        explains=explain.is_delayed_at_once),
    Deviation(
        name="a Redirect of another router",
        kernel="a Redirect of any default router is taken",
        model="only one of the router to which packets to the destination go",
        section="RFC 4861, 8.1",
        sentence="The IP source address of the Redirect is the same as the current first-hop router for the specified ICMP Destination Address.",
        right=Right.MODEL,
        shown_by=("test_redirect[of a router that is not used]",),
        subjects=("next hop", "neighbours", "neighbour"),
        explains=explain.is_redirected_by_another),
    Deviation(
        name="a Redirect to a silent target",
        kernel="packets go to the target of a Redirect also after it failed in PROBE: it is resolved again, and the Redirect ends when that fails",
        model="the Redirect ends when the target fails",
        section="RFC 4861, 7.3.3",
        sentence="Subsequent traffic to that neighbor will recreate the entry and perform address resolution again.",
        right=Right.BOTH,
        shown_by=("test_in_time[silent_target]",),
        subjects=("next hop",),
        explains=explain.is_redirect_kept),
)
