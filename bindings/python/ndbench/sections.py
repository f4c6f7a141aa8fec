"""The sections of the RFCs that ask for a rule: of each reason to drop a frame."""
from __future__ import annotations

from typing import Dict, Optional

from nd import HeardFrame, Hearing, Mac, Option, Policy, Role, SourceLinkLayerAddress, State, Why, options_of

from .texts import message_type

VALIDATION = {133: "RFC 4861, 6.1.1", 134: "RFC 4861, 6.1.2", 135: "RFC 4861, 7.1.1", 136: "RFC 4861, 7.1.2", 137: "RFC 4861, 8.1"}
# These are the same for all messages; any other reason is in the section that validates the message.
SECTIONS: Dict[Why, str] = {
    Why.FRAME_SHORT: "RFC 2464, 3", Why.NOT_IPV6: "RFC 2464, 3", Why.HEADER_SHORT: "RFC 8200, 3", Why.VERSION: "RFC 8200, 3",
    Why.PAYLOAD_SHORT: "RFC 8200, 3", Why.OPTION_ZERO: "RFC 4861, 4.6", Why.OPTION_OVER: "RFC 4861, 4.6", Why.SUM: "RFC 4443, 2.3",
    Why.NOT_FIRST_HOP: "RFC 4861, 8.1"}
MULTICAST_SOURCE = "RFC 4291, 2.7"
# The messages that a role does not take.
NOT_TAKEN: Dict[Role, Dict[int, str]] = {Role.HOST: {133: "RFC 4861, 6.1.1"}, Role.ROUTER: {134: "RFC 4861, 6.2.7", 137: "RFC 4861, 8.2"}}
# The destination is none of the node's own; and what its addresses keep on the link a router does not send on either.
NOT_ITS_ADDRESS, NOT_SENT_ON = "RFC 4291, 2.8", "RFC 4291, 2.5.6 and 2.8"
# The target of a solicitation is none of its addresses, or tentative; the destination of a packet is tentative.
NOT_ITS_TARGET, TENTATIVE_TARGET, TENTATIVE_DESTINATION = "RFC 4861, 7.2.3", "RFC 4862, 5.4.3", "RFC 4862, 5.4"
SOLICITATION = 135
SOLICITATIONS = (133, SOLICITATION)
REDIRECT = 137
BY_SELF, BY_UNREDIRECTED = "our choice: the policy self", "our choice: the policy unredirected"
# What the policy `strict` drops: a source that is the loopback address, and a multicast solicitation without a Source Link-Layer Address.
LOOPBACK_SOURCE, WITHOUT_SOURCE_ADDRESS = "RFC 4291, 2.5.3", "RFC 4861, 4.3"


def section_of_drop(why: Why, frame: bytes) -> str:
    """Returns the section that asks to drop a frame for this reason, any but NOT_FOR_US."""
    kind: Optional[int] = message_type(frame)
    if why is Why.SOURCE and frame[22] == 0xFF:
        return MULTICAST_SOURCE
    return SECTIONS.get(why) or (VALIDATION[kind] if kind in VALIDATION else "our choice")


def section_by_policies(policies: Policy, role: Role, mac: Mac, heard: HeardFrame) -> Optional[str]:
    """Returns why the policy `unredirected` or `strict` of a node drops a valid message or another packet, or None if neither does. `mac`: the node's
    own Ethernet address."""
    if heard.message_type in NOT_TAKEN[role]:
        return None
    if Policy.UNREDIRECTED in policies and heard.message_type == REDIRECT:
        return BY_UNREDIRECTED
    section = _forbidden(heard, mac if Policy.SELF in policies else None) if Policy.STRICT in policies else None
    return section and f"{section}: the policy strict"


def _forbidden(heard: HeardFrame, own: Optional[Mac]) -> Optional[str]:
    """Returns the section that forbids to send what was heard, or None. `own`: as for `_counts`."""
    if heard.source.is_loopback:
        return LOOPBACK_SOURCE
    if heard.hearing is Hearing.OTHER:
        return MULTICAST_SOURCE if heard.source.is_multicast else None
    options = [option for option in options_of(heard.options) if option.number == SourceLinkLayerAddress.number]
    if heard.message_type in SOLICITATIONS and heard.source.is_unspecified:
        return VALIDATION[heard.message_type] if options else None
    needs_address = heard.message_type == SOLICITATION and heard.destination.is_multicast
    return WITHOUT_SOURCE_ADDRESS if needs_address and not any(_counts(option, own) for option in options) else None


def _counts(option: Option, own: Optional[Mac]) -> bool:
    """Returns true for a Source Link-Layer Address that a node does not pass over. `own`: the node's own Ethernet address if it has the policy `self`
    by which that, a group's address and zeros are passed over; else None."""
    if not isinstance(option, SourceLinkLayerAddress):
        return False
    return own is None or not (option.mac.is_group or not any(option.mac) or option.mac == own)


def section_not_for(role: Role, frame: bytes, own: Dict[bytes, State]) -> str:
    """Returns the section that asks a node without policies to drop a frame that is not for it, once its link-local address is assigned. `own`: the
    states of its addresses."""
    kind = message_type(frame)
    if kind is None:
        if own.get(frame[38:54]) is State.TENTATIVE:
            return TENTATIVE_DESTINATION
        return NOT_SENT_ON if role is Role.ROUTER else NOT_ITS_ADDRESS
    if kind in NOT_TAKEN[role]:
        return NOT_TAKEN[role][kind]
    target = own.get(frame[62:78])
    if kind == SOLICITATION and target is State.TENTATIVE:
        return TENTATIVE_TARGET
    return NOT_ITS_TARGET if kind == SOLICITATION and target in (None, State.DUPLICATE) else NOT_ITS_ADDRESS
