"""explain: whether a difference is exactly a deviation of the list. `found` is a judge.Difference: what the kernel and the model did, of what is
called `key`, after the `event`."""
from dataclasses import replace

import frames
from views import Left, Neighbour


def is_nonce(found):
    """Each solicitation of the kernel is the model's, with a nonce of 6 bytes as its only option."""
    options = [frames.options(frame) for frame in found.kernel]
    is_one = all(len(option) == 8 and option.startswith(frames.NONCE_OF_SIX_BYTES) for option in options)
    return is_one and [frames.without_options(frame) for frame in found.kernel] == found.model


def is_own_nonce_known(found):
    return found.event.get("looped_back") == "with its nonce" and are_states(found, "PREFERRED", "DUPLICATE")


def is_discarded_while_tentative(found):
    return found.event.get("is_to_tentative") and are_states(found, "PREFERRED", "DUPLICATE")


def is_heard_early(found):
    return found.event.get("while_tentative") and found.kernel and found.model is None


def is_solicited_on(found):
    """The kernel sends the same solicitation more often than the model."""
    return 0 < len(found.model) < len(found.kernel) and {*found.kernel} == {*found.model}


def is_solicited_no_more(found):
    """The kernel sends none after an advertisement whose router lifetime is 0."""
    return found.event.get("router_lifetime") == 0 and len(found.kernel) == 1 < len(found.model) and {*found.kernel} == {*found.model}


def is_own_advertisement(found):
    frame = found.event.get("frame")
    return frame and found.key == frames.OWN == frames.source(frame) and found.kernel is None


def is_option_passed_over(found):
    """Of the options for the prefix the kernel takes only those whose preferred lifetime is not above the valid one; the model takes all."""
    if "frame" not in found.event:
        return False
    options = frames.lifetimes_on_link(found.event["frame"], found.key)
    good = [(valid, preferred) for valid, preferred in options if preferred <= valid]
    rows = [prefix_after(found.event["before"].get(found.key), taken, found.event["passed"]) for taken in (good, options)]
    return len(good) < len(options) and [found.kernel, found.model] == rows


def prefix_after(before, options, passed):
    """Returns the row of the prefix list so many seconds after these options for its prefix (RFC 4861, 6.3.4)."""
    valid = options[-1][0] if options else None
    if valid == 0 or not options and before is None:
        return None
    return (Left(valid) if options else before).later(passed)


def is_retrans_timer_raised(found):
    """The kernel has 8 to 10 ms in place of less, and all else is the same."""
    return (0 < found.model.retrans_timer < 8 <= found.kernel.retrans_timer <= 10
            and replace(found.kernel, retrans_timer=found.model.retrans_timer) == found.model)


def is_answered_without_tlla(found):
    """The solicitation is unicast, and the kernel's answer is the model's without its option, and so without the flag Override."""
    return not frames.is_multicast(found.event["frame"]) and [frames.without_options(frame, O=0) for frame in found.model] == found.kernel


def is_asker_not_resolved(found):
    """A multicast solicitation has no address of its sender: the kernel does nothing, the model solicits the sender."""
    frame = found.event["frame"]
    if not frames.is_multicast(frame) or frames.has_slla(frame):
        return False
    if found.subject == "asker":
        return found.kernel is None and found.model.state == "INCOMPLETE"
    return found.kernel == [] and [(frames.kind(sent), frames.target(sent)) for sent in found.model] == [(frames.NS, frames.source(frame))]


def is_from_loopback(found):
    """The kernel drops what is from the loopback address, and the model answers it there."""
    if frames.source(found.event["frame"]) != frames.LOOPBACK:
        return False
    if found.subject == "asker":
        return found.kernel is None and found.model.state == "DELAY"
    return found.kernel == [] and [(frames.kind(sent), frames.destination(sent)) for sent in found.model] == [(frames.NA, frames.LOOPBACK)]


def is_released_as_use(found):
    """An entry was INCOMPLETE, and packets waited: the kernel has it in DELAY, the model in STALE, and all else is the same."""
    return found.event.get("state") == "INCOMPLETE" and are_states(found, "DELAY", "STALE") and replace(found.kernel, state="STALE") == found.model


def is_queue_longer(found):
    """The kernel sends all packets that waited, the model the last three."""
    return len(found.model) == 3 < len(found.kernel) and found.kernel[-3:] == found.model


def is_delayed_at_once(found):
    return (found.kernel, found.model) == ("DELAY", "STALE")


def is_redirect_kept(found):
    """The target of a Redirect was not reached: the kernel's packets still go there."""
    return (found.kernel, found.model) == (found.event.get("silent_target"), frames.ROUTER)


def is_redirected_by_another(found):
    """The source of a Redirect is one of the routers, and not the first hop: the kernel takes it, the model drops it."""
    frame = found.event.get("frame")
    if not frame or frames.kind(frame) != frames.REDIRECT:
        return False
    source, target, first_hop = frames.source(frame), frames.target(frame), found.event["first_hop"]
    if source == first_hop or source not in found.event["routers"]:
        return False
    if found.subject == "next hop":
        return (found.kernel, found.model) == (target, first_hop)
    before = found.event["before"].get(found.key)
    return found.key == target and found.model == before and found.kernel == neighbour_after(before, frame)


def neighbour_after(before, redirect):
    """Returns the entry of the target of a Redirect with a link-layer address (RFC 4861, 8.3), where what waits is a use."""
    mac = frames.tlla(redirect)
    if before and before.mac == mac:
        return replace(before, is_router=True)
    return Neighbour("DELAY" if before and before.state == "INCOMPLETE" else "STALE", mac, True)


def are_states(found, kernel, model):
    """Returns true if the row of the kernel and that of the model are there, and in these states."""
    return bool(found.kernel and found.model) and (found.kernel.state, found.model.state) == (kernel, model)
