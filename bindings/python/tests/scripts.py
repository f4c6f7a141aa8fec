"""Runs a script of `ndpctl run` (docs/FORMATS.md) over the module, and returns its text. It is for well-formed scripts."""
from __future__ import annotations

from ipaddress import IPv6Address, IPv6Network
from typing import Iterator, List

import nd
from ndbench.tables import TABLES
from ndbench.texts import address_text, record_text, refusal_text

LIMITS = ("neighbours", "routers", "prefixes", "addresses", "servers", "names", "redirects", "destinations", "offers", "routes", "waiting")


def options_of(words: List[str]) -> nd.Options:
    """Returns the options of a command line."""
    named = dict(zip(words[::2], words[1::2]))
    kind, _, number = named.get("--draws", "seed:0").partition(":")
    draws = nd.Seed(int(number)) if kind == "seed" else nd.Word(int(number))
    policies = nd.Policy(0)
    for word in filter(None, named.get("--policy", "").split(",")):
        policies |= nd.Policy[word.upper()]
    limits = nd.Limits(**{name: int(named[f"--{name}"]) for name in LIMITS if f"--{name}" in named})
    return nd.Options(nd.Role[named["--role"].upper()], named["--mac"], 0, draws, int(named.get("--transmits", "1")), limits, policies)


def number_or(word: str, other: int) -> int:
    return other if word == "-" else int(word)


def payload_of(word: str) -> bytes:
    return b"" if word == "-" else bytes.fromhex(word)


class Runner:
    """A node, and the lines of a script for it."""

    def __init__(self, words: List[str]) -> None:
        self.options = options_of(words)
        self.node = nd.Node(self.options)

    def run(self, script: str) -> str:
        """Returns the text of a script."""
        with self.node:
            return "".join(f"{line}\n" for text in script.splitlines() for line in self.answer(text))

    def answer(self, line: str) -> Iterator[str]:
        """Returns the lines that answer one line."""
        moment, verb, *words = line.split(" ")
        now = int(moment)
        try:
            said = getattr(self, f"do_{verb}")(now, *words)
        except nd.Past:
            yield f"{now} refused past {self.node.last_moment()}"
            return
        yield from (f"{record.moment} {record_text(record)}" for record in self.node.poll())
        if verb == "show":
            show = TABLES[self.options.role].get(words[0])
            rows = [f"{now} {row}" for row in show(self.node, now)] if show else []
            yield from [*rows, f"{now} end {len(rows)}"]
        if verb == "resolve":
            yield f"{now} {self.path_text(words[0], said)}"

    # ---- events

    def do_at(self, now: int) -> None:
        self.node.pass_time(now)

    def do_show(self, now: int, _table: str) -> None:
        self.node.pass_time(now)

    def do_rx(self, now: int, digits: str) -> None:
        self.node.receive(now, payload_of(digits))

    def do_send(self, now: int, source: str, destination: str, next_header: str, digits: str) -> None:
        self.node.send(now, source, destination, int(next_header), payload_of(digits))

    def do_confirm(self, now: int, address: str) -> None:
        self.node.confirm(now, address)

    def do_forget(self, now: int, address: str) -> None:
        self.node.forget(now, address)

    def do_clear(self, now: int, table: str) -> None:
        self.node.clear(now, nd.Clearable[table.upper()])

    def do_address(self, now: int, address: str, valid: str, preferred: str) -> None:
        self.node.add_address(now, address, number_or(valid, nd.LIFETIME_INFINITE), number_or(preferred, nd.LIFETIME_INFINITE))

    def do_withdraw(self, now: int, address: str) -> None:
        self.node.remove_address(now, address)

    def do_resolve(self, now: int, address: str) -> object:
        return self.node.resolve(now, address)

    def do_advertise(self, now: int, *words: str) -> None:
        least, most, lifetime, hop_limit, flags, reachable, retrans, mtu = words
        interval = number_or(most, 600)
        preference = nd.Preference.HIGH if "h" in flags else nd.Preference.LOW if "l" in flags else nd.Preference.MEDIUM
        self.node.advertise(now, nd.Advertising(int(least), interval, number_or(lifetime, 3 * interval), int(hop_limit), "m" in flags, "o" in flags,
                                                preference, int(reachable), int(retrans), int(mtu)))

    def do_prefix(self, now: int, prefix: str, valid: str, preferred: str, flags: str) -> None:
        network = IPv6Network(prefix, strict=False)
        self.node.advertise_prefix(now, nd.Offer(network, number_or(valid, 2592000), number_or(preferred, 604800), "l" in flags, "a" in flags))

    def do_route(self, now: int, prefix: str, hop: str) -> None:
        router = None if hop == "direct" else IPv6Address(hop)
        self.node.add_route(now, nd.Route(IPv6Network(prefix, strict=False), router))

    def do_stop(self, now: int) -> None:
        self.node.stop_advertising(now)

    def path_text(self, destination: str, path: object) -> str:
        """Returns what a line says of the answer to `resolve`."""
        if isinstance(path, nd.Path):
            return f"path {address_text(IPv6Address(destination))} {address_text(path.next_hop)} {path.mac or '-'}"
        if isinstance(path, nd.NotResolved) and path.refusal is not None:
            return refusal_text(nd.Refused(0, path.refusal, limit=path.limit))
        return f"path {address_text(IPv6Address(destination))} no-route"
