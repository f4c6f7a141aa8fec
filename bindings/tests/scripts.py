"""scripts: long scripts of `ndpctl run` without a text, for two programs whose texts are compared. Those with a text are rows of the corpus
(corpus.py)."""
import random

import frames

TABLES = ["neighbours", "routers", "prefixes", "addresses", "dns", "redirects", "params", "advertise", "routes"]
FAR = ["2001:db8:1::5", "2001:db8:2::5", "2001:db8:99::7", "2001:db8:7::1", "ff02::1", "ff02::1:3", "2001:db8:1::9", "fe80::9"]


def command(choice):
    """Returns a line without its moment: of the upper layer, of an operator, or of a router."""
    own = choice.choice([frames.HOST] * 4 + ["2001:db8:1:0:3656:78ff:fe9a:bcde", "::", "2001:db8::77"])
    other = choice.choice([*FAR, *(frames.link_local(frames.neighbour(i)) for i in range(8))])
    bits = choice.choice([0, 48, 63, 64, 128])
    lines = [f"send {own} {other} {choice.randrange(256)} {choice.choice(['-', '00', '0102' * 700, 'ff' * 1461])}"] * 8
    lines += [f"confirm {other}", f"forget {other}", "clear " + choice.choice(["neighbours", "routers", "prefixes", "redirects", "dns"])]
    lines += [f"advertise {choice.choice(['3 4 -', '200 600 1800', '3 - 0'])} {choice.choice(['0', '64'])} {choice.choice(['-', 'm', 'mo'])} 0 1000 1400"]
    lines += [f"prefix 2001:db8:{choice.randrange(20):x}::/{bits} {choice.choice(['3600 1800', '- -', '0 0'])} {choice.choice(['-', 'l', 'a', 'la'])}"] * 3
    lines += [f"route {choice.choice(FAR[:4])}/{bits} {choice.choice(['direct', 'fe80::2', frames.link_local(frames.ROUTER_MAC)])}"] * 3
    hand = choice.choice(["2001:db8:1::9", "2001:db8:1::a", "2001:db8:1:0:3656:78ff:fe9a:bcde", frames.HOST])
    lines += [f"address {hand} {choice.choice(['- -', '- 0', '60 30', '7200 7200', '1 1'])}"] * 2 + [f"withdraw {hand}"]
    return choice.choice([*lines, "stop", f"show {choice.choice(TABLES)}"])


def long(seed, count):
    """Returns a script with frames of all kinds and with all other lines, for a host or a router of frames.HOST_MAC."""
    choice = random.Random(seed)
    received = [*frames.mixed(count), frames.advertisement("02:00:00:00:00:02", frames.link_layer(1, "02:00:00:00:00:02"), 300, 8)]
    received += [frames.datagram(source, far, hop, b"payload") for source in ("2001:db8:1::9", "fe80::9") for far in FAR for hop in (1, 2, 64)]
    now, lines = 0, []
    for _ in range(count):
        now += choice.choice([0, 0, 1, 20, 150, 999])
        lines.append(f"{now} rx {choice.choice(received) or '-'}" if choice.random() < 0.7 else f"{now} {command(choice)}")
        if choice.random() < 0.01:
            lines.append(f"{max(0, now - 5000)} at")
    for later in (now, now + 40_000, now + 100_000_000):
        lines += [*(f"{later} show {table}" for table in TABLES), f"{later} stop"]
    return "\n".join(lines) + "\n"
