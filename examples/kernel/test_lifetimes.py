"""Lifetimes of addresses and prefixes: how a later advertisement changes them (RFC 4861, 6.3.4; RFC 4862, 5.5.3 e). test_times has how they end."""
import pytest

import frames
import pace
import rfc

DAY = 86400
# Two options for one prefix, the second one in a later advertisement: the valid and the preferred lifetime of each.
RENEWALS = [
    ((DAY, 3600), (2 * DAY, 7200)),
    ((DAY, 3600), (rfc.TWO_HOURS + 100, 100)),
    ((DAY, 3600), (rfc.TWO_HOURS, 100)),
    ((DAY, 3600), (rfc.TWO_HOURS - 100, 100)),
    ((DAY, 3600), (3600, 1800)),
    ((DAY, 3600), (1, 1)),
    ((DAY, 3600), (0, 0)),
    ((DAY, 3600), (DAY, 0)),
    ((DAY, 3600), (1800, 3600)),
    ((DAY, 3600), (rfc.INFINITY, rfc.INFINITY)),
    ((rfc.INFINITY, rfc.INFINITY), (DAY, 3600)),
    ((rfc.INFINITY, rfc.INFINITY), (3600, 1800)),
    ((rfc.INFINITY, 3600), (0, 0)),
    ((3600, 1800), (7000, 7000)),
    ((3600, 1800), (1800, 600)),
    ((3600, 1800), (60, 60)),
    ((3600, 1800), (0, 0)),
    ((3600, 1800), (3600, 0)),
    ((3600, 0), (7200, 3600)),
    ((rfc.TWO_HOURS, 3600), (rfc.TWO_HOURS - 100, 3600)),
    ((rfc.TWO_HOURS + 100, 3600), (rfc.TWO_HOURS, 3600)),
]
NETWORKS = [f"2001:db8:{number:x}::" for number in range(0x100, 0x100 + len(RENEWALS))]
TABLES = ("addresses", "prefixes")


def name_of(lifetimes):
    return "/".join("infinity" if lifetime == rfc.INFINITY else str(lifetime) for lifetime in lifetimes)


def advertisement(network, lifetimes):
    return frames.ra(frames.prefix(network, valid=lifetimes[0], preferred=lifetimes[1]), lifetime=0)


@pytest.fixture(scope="module")
def renewed(settled):
    """The tables of both after the first options, when all addresses are assigned, and after the second ones."""
    tables = []
    for options in zip(*RENEWALS):
        for network, lifetimes in zip(NETWORKS, options):
            settled.send(advertisement(network, lifetimes))
        settled.wait(pace.LONGEST_DETECTION)
        tables.append(({table: settled.both(table) for table in TABLES}, settled.passed()))
    return tables


@pytest.mark.parametrize("number", range(len(RENEWALS)), ids=["-".join(map(name_of, pair)) for pair in RENEWALS])
def test_renewal(renewed, judge, number):
    network, before = NETWORKS[number], {}
    for lifetimes, (tables, passed) in zip(RENEWALS[number], renewed):
        for key, table in ((f"{network[:-1]}:ff:fe00:1", "addresses"), (f"{network}/64", "prefixes")):
            kernel, model = (rows.get(key) for rows in tables[table])
            judge.compare(table, kernel, model, key, frame=bytes(advertisement(network, lifetimes)), before=before, passed=passed)
            assert kernel or before, "nothing was entered"
        before = tables["prefixes"][0]
