"""streams: lines for the programs that measure: each a moment and what is done then, as lines.h reads it. A cache of neighbours is filled, a router
among them, and then lines of one kind follow, which are measured."""
import frames

# How many lines of a kind are measured, and the moment up to which lines prepare the tables.
MEASURED = 200
PREPARED = 3900
# How many destinations are asked for, and how often each.
DESTINATIONS = 64
ROUNDS = 10


def cache(known):
    """Yields lines that put `known` neighbours into the cache, a router among them."""
    yield 2600, frames.advertisement()
    for i in range(known - 1):
        yield 3000 + i // 8, frames.solicitation(frames.neighbour(i))


def scattered(k, known):
    """Returns the k-th of the neighbours that aren't the router, in an order that is not that of their addresses."""
    return frames.neighbour(k * 7919 % max(1, known - 1))


def asking(moment, mark, destinations):
    """Yields lines that ask for destinations, from a moment on."""
    for k, to in enumerate(destinations):
        yield moment + k // 8, mark + frames.packed(to).hex()


def sending(mac):
    """Returns what sends a packet without a payload to a neighbour."""
    return ">" + frames.packed(frames.link_local(mac)).hex()


def alternating(k):
    """Returns an advertisement whose lifetimes are all a second shorter than those of the one before it, or all a second longer."""
    return frames.advertisement(options=frames.announced(frames.ROUTER_MAC, k % 2), lifetime=1800 - k % 2)


KINDS = {
    "RA": lambda mac, k: frames.advertisement(),
    "NS": lambda mac, k: frames.solicitation(mac),
    "NA": lambda mac, k: frames.answer(mac),
    "Redirect": lambda mac, k: frames.redirect(k % 64),
    "send": lambda mac, k: sending(mac),
}


def script(kind, known):
    """Yields lines that fill the cache, and then lines of a kind."""
    yield from cache(known)
    for k in range(MEASURED):
        yield 4000 + k // 8, KINDS[kind](scattered(k, known), k)


def prepared(known):
    """Yields lines that fill the cache, and one after the host's addresses are assigned, so that nothing is due in what is measured."""
    yield from cache(known)
    yield 3700, frames.solicitation(frames.neighbour(0))


def compared(line):
    """Returns the stream of a kind. `line` returns the k-th line of those that are measured, of a neighbour."""
    def stream(known):
        yield from prepared(known)
        for k in range(MEASURED):
            yield 4000 + k // 8, line(scattered(k, known), k)
    return stream


def redirects(known):
    """Yields Redirects for destinations that were asked for before."""
    yield from prepared(known)
    yield from asking(4050, "?", [f"2001:db8:99::{1 + k:x}" for k in range(DESTINATIONS)])
    for k in range(MEASURED):
        yield 4100 + k // 8, frames.redirect(k % DESTINATIONS)


def hits(known):
    """Yields questions where the packets for neighbours go, each of whom was asked for before."""
    destinations = [frames.link_local(scattered(k, known)) for k in range(DESTINATIONS)]
    yield from prepared(known)
    yield from asking(3800, "?", destinations)
    for i in range(ROUNDS):
        yield from asking(4000 + 8 * i, "?", destinations)


def misses(known):
    """Yields questions where the packets for neighbours go, each of whom is asked for once."""
    yield from prepared(known)
    yield from asking(4000, "?", dict.fromkeys(frames.link_local(scattered(k, known)) for k in range(DESTINATIONS)))


# What is compared with other programs.
COMPARED = {
    "RA, varied": compared(lambda mac, k: alternating(k + 1)),
    "RA, equal": compared(KINDS["RA"]),
    "NS": compared(KINDS["NS"]),
    "NA": compared(KINDS["NA"]),
    "Redirect": redirects,
    "send": compared(KINDS["send"]),
    "hit": hits,
    "miss": misses,
}


def text_of(lines):
    """Returns lines as the programs read them."""
    return "".join(f"{now} {what}\n" for now, what in lines)
