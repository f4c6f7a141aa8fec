"""check_page: docs/try/index.html. It is what bindings/page makes of its modules, and these are the ones that are made of the proved crates by the same
tools. Rows of `ndpctl check`, and frames that are cut and changed, have the lines that they are to have, and rows of `ndpctl run` their texts, also where
a host hears them as a capture; a malformed line has its number; each number is explained, and each reason has its section: all this by node. What needs
a browser is in check_browser."""
import base64
import json
import os
import re
import sys

from check_programs import BINDINGS, NDPCTL, TESTS, difference
from checking import IS_FULL, TOP, has, read, report_if, run, run_for, skip

sys.path[:0] = [f"{BINDINGS}/targets", f"{BINDINGS}/python"]
import captures  # noqa: E402
import corpus  # noqa: E402
import frames  # noqa: E402
import hostile  # noqa: E402
import page  # noqa: E402
import rules  # noqa: E402
import scripts  # noqa: E402
from nd import Why  # noqa: E402
from ndbench.sections import section_of_drop  # noqa: E402

ROLES = ("host", "router")
# Of the frames that are cut and changed, so many are passed over before the next one.
STEP = 29
# Seconds, for scripts that take about one.
LONGEST = 120
WORDS = {number: f"drop {number} {name}" for number, name in rules.REASONS.items()} | hostile.MESSAGES


def rows_of_link():
    return list(zip(read(f"{TOP}/examples/link.hex").splitlines(), read(f"{TOP}/examples/link.txt").splitlines()))


def files_of_link():
    """Returns files with the frames of a link, by their names."""
    text = read(f"{TOP}/examples/link.hex")
    frames = [bytes.fromhex(digits) for digits in text.split()]
    return {"link.pcap": captures.pcap_of(frames), "link.pcapng": captures.pcapng_of(frames), "link.hex": text.encode(),
            "link.xx": captures.dump_of(frames)}


def changed_frames(step):
    """Returns frames of the corpus that are cut and changed, half of them with the checksum made good, and what the rules say to a host and to a
    router: the whole line of a frame that is dropped, and the first word of another."""
    rows, number = [], 0
    for base in hostile.named()[1]:
        for at, frame in enumerate(hostile.variants(base)):
            if number % step == 0 and frame:
                frame = hostile.mended(frame, at < len(base)) if number // step % 2 else frame
                rows.append((frame.hex(), [WORDS[hearing] for hearing in rules.heard_by_both(frame)]))
            number += 1
    return rows


def wrong_rows(rows, lines):
    """Returns what is wrong with the lines of rows. Of a line that is not of a dropped frame, what is wanted may be the beginning."""
    wrong = [f"{frame[:80]}: {line!r}, not {wanted!r}" for (frame, wanted), line in zip(rows, lines)
             if line != wanted and (wanted.startswith("drop") or not line.startswith(f"{wanted} "))]
    return wrong if len(rows) == len(lines) else [*wrong, f"{len(lines)} lines for {len(rows)} frames"]


def report_rows(what, rows, lines):
    wrong = wrong_rows(rows, lines)
    report_if(f"{what}: {len(rows)} frames, of each the line", rows and not wrong, "\n".join(wrong[:4]))


def all_rows(step):
    """Returns what is run: names, roles and rows."""
    frames = changed_frames(step)
    yield "the rows of ndpctl check", "either", rows_of_link() + [(frame, line) for frame, line in corpus.checks() if frame]
    for number, role in enumerate(ROLES):
        yield f"frames that are cut and changed, to a {role}", role, [(frame, wanted[number]) for frame, wanted in frames]


def has_node(what):
    """Returns true if node is there, and has what the page's script asks of a browser."""
    if not has("node"):
        return False
    if run(["node", "-e", "new DecompressionStream('gzip'); new Response('')"]).returncode == 0:
        return True
    skip("the page in node", "node is older than 18")
    return False


def check_in_node(what, path):
    if not has_node(what):
        return
    for name, role, rows in all_rows(STEP):
        said = run(["node", f"{TESTS}/lines.mjs", path, role], input="".join(f"{frame}\n" for frame, _ in rows))
        report_rows(f"{what} in node, {name}", rows, said.stdout.splitlines() or [said.stderr])
    if not os.path.exists(NDPCTL):
        return skip("programs compared with ndpctl", "crates/ndpctl/out/ndpctl is not there")
    text = "".join(f"{frame}\n" for frame, _ in changed_frames(STEP))
    said, wanted = run(["node", f"{TESTS}/lines.mjs", path, "either"], input=text), run([NDPCTL, "check"], input=text)
    report_if(f"{what} in node: as ndpctl check, {len(wanted.stdout.splitlines())} lines", said.stdout == wanted.stdout != "", said.stderr)
    return None


def traced(room, words, script):
    """Returns what the program `trace` prints, which is built over the archive for this machine."""
    return run([f"{room}/trace", *words], input=script).stdout


def known_runs(room):
    """Returns names, words, scripts and texts of `ndpctl run`: those of the corpus, and longer ones with the text of `trace`, if it was built."""
    yield from ((row.name, row.words, row.script, row.text) for row in corpus.runs())
    if os.path.exists(f"{room}/trace"):
        for role in ROLES:
            words, script = ["run", "--role", role, "--mac", frames.HOST_MAC, "--draws", "seed:1"], scripts.long(1, 1000)
            yield f"a long script of a {role}", words, script, traced(room, words, script)


def check_runs_in_node(what, path, room):
    if not has_node(what):
        return
    known = list(known_runs(room))
    said = run(["node", f"{TESTS}/runs.mjs", path], input=json.dumps([[words, script] for _, words, script, _ in known]))
    texts = json.loads(said.stdout or "[]")
    wrong = [f"{name}: {difference(text, wanted)}" for text, (name, _, _, wanted) in zip(texts, known) if text != wanted]
    lines = sum(wanted.count("\n") for *_, wanted in known)
    are_same = len(texts) == len(known) and not wrong
    report_if(f"{what} in node: {len(known)} scripts of ndpctl run, {lines} lines", are_same, said.stderr + "\n".join(wrong[:4]))


def check_longest_in_node(what, path):
    """Requires that a node of the page takes a frame as long as its room, and that a longer one, or payload, is an error and overwrites nothing."""
    if not has_node(what):
        return
    words, longest = ["run", "--role", "host", "--mac", frames.HOST_MAC, "--draws", "word:0"], 131072
    scripts = [f"2000 at\n2100 rx {'41' * longest}\n", f"2000 at\n2100 rx {'41' * (longest + 1)}\n2100 show addresses\n",
               f"2000 send {frames.HOST} ff02::1 17 {'41' * (longest - 31)}\n"]
    said = run(["node", f"{TESTS}/runs.mjs", path], input=json.dumps([[words, script] for script in scripts]))
    texts = json.loads(said.stdout or '["", "", ""]')
    wanted = [f"line {number}: {count} bytes are too many for this page\n" for number, count in ((2, longest + 1), (1, longest - 31))]
    are_bounded = [text.endswith(line) for text, line in zip(texts[1:], wanted)]
    is_right = texts[0].endswith("2100 drop 2 NotIpv6\n") and all(are_bounded)
    report_if(f"{what} in node: the longest frame, and one byte more", is_right, said.stderr + "\n".join(text[:200] for text in texts))


def check_longest_run_in_node(path):
    """Requires that a node of the page runs up to the greatest moment of a script, and that a line with a later one, for which it may take days, is
    refused."""
    if not has_node("the greatest moment"):
        return
    words, most = ["run", "--role", "host", "--mac", frames.HOST_MAC, "--draws", "word:0"], 2**44
    scripts = [f"5 at\n{most} show params\n", f"{most} at\n{most + 1} at\n", f"5 at\n{2**62 - 1} at\n"]
    said = run_for(LONGEST, ["node", f"{TESTS}/runs.mjs", path], input=json.dumps([[words, script] for script in scripts]))
    refused = [f"line 2: found “{at}”. Expected: a moment up to {most}, 557 years, on this page\n" for at in (most + 1, 2**62 - 1)]
    ends = [f"\n{most} end 1\n", *refused]
    texts = json.loads(said and said.stdout or "[]")
    report_if("the page in node: the greatest moment of a script, and later ones", len(texts) == 3 and all(map(str.endswith, texts, ends)),
              "\n".join(text[-200:] for text in texts) or f"it has not ended after {LONGEST} seconds")


def check_longest_capture_in_node(path):
    """Requires that a capture of two years is replayed, and a longer one is not, though each of its gaps is shorter."""
    if not has_node("the longest capture"):
        return
    digits, most, options = [bytes.fromhex(frame) for frame, _ in rows_of_link()[:3]], 2**36, {"mac": frames.HOST_MAC, "draws": "word:0"}
    known = {end: next(captures.captures_of(list(zip((0, most // 2, end), digits)))) for end in (most, most + 1)}
    runs = [[options, base64.b64encode(capture).decode(), 0, end] for end, capture in known.items()]
    said = run(["node", f"{TESTS}/replays.mjs", path], input=json.dumps(runs))
    texts = json.loads(said.stdout or '["", ""]')
    is_right = f"\n{most} " in texts[0] and texts[1] == "Two frames of this capture are more than two years apart."
    report_if("the page in node: the longest capture, and one of a millisecond more", is_right, said.stderr[-400:] + "\n".join(texts))


def check_captures_in_node(what, path):
    """Requires that the page finds the frames of a link in files of four kinds, and in a block of a capture none that is longer than the block."""
    if not has_node(what):
        return
    digits = [frame for frame, _ in rows_of_link()]
    for name, data in files_of_link().items():
        said = run(["node", f"{TESTS}/captures.mjs", path], input=data, text=False)
        report_if(f"{what} in node: the frames of {name}", said.stdout.decode().split() == digits, said.stderr.decode() + said.stdout.decode()[:400])
    count = 200
    lengths = [32 * (count - i) - 28 for i in range(count)]
    said = run(["node", f"{TESTS}/captures.mjs", path], input=captures.pcapng_of([b""] * count, lengths), text=False)
    lines = said.stdout.decode().splitlines()
    report_if(f"{what} in node: {count} frames that are longer than their blocks", lines == ["the block ends within this frame"] * count,
              said.stderr.decode() + "\n".join(line[:100] for line in lines[:4]))


def results(path, name, calls):
    """Returns what a function of the page's script returns to calls, or the error."""
    said = run(["node", f"{TESTS}/parts.mjs", path, name], input=json.dumps(calls))
    return json.loads(said.stdout) if said.returncode == 0 else said.stderr


# Lines that are malformed by docs/FORMATS.md or docs/LIMITS.md, and what these say is expected in the place of a word of theirs.
MALFORMED = {
    "x at": "a number from 0 to 4611686018427387903", "10 shw params": "a command: at, rx, send,", "10 send fe80::1 ff02::1 256 -": "a number from 0 to 255",
    "10 confirm fe80": "an IPv6 address", "10 rx 123": "an even number of hexadecimal digits", "10 prefix 2001:db8::/129 - - la": "a prefix",
    "10 prefix 2001:db8::/64 - - al": "flags: -, or some of the letters l a in this order", "10 at 5": "the end of the line",
    "10 clear params": "neighbours, routers, prefixes, redirects, dns", "10 show": "neighbours, routers, prefixes, addresses, dns, redirects, params,",
    "10 prefix fe80::/64 - - la": "no link-local or multicast prefix", "10 advertise 3 3 - 64 - 0 0 0": "max from 4 to 1800",
    "10 advertise x 4 - 64 - 0 0 0": "a number from 0 to 65535,"}


def check_faults_in_node(path):
    """Requires that the rows of the corpus with a malformed line end with its number, and that what is expected is what docs/FORMATS.md says."""
    if not has_node("what is expected"):
        return
    rows = [row for row in corpus.read().rows if row.malformed and row.words[0] == "run" and row.script.split("\n")[row.malformed - 1]]
    words = ["run", "--role", "router", "--mac", frames.HOST_MAC, "--draws", "word:0"]
    runs = [[row.words, row.script] for row in rows] + [[words, f"5 at\n\n{line}\n6 at\n"] for line in MALFORMED]
    texts = json.loads(run(["node", f"{TESTS}/runs.mjs", path], input=json.dumps(runs)).stdout or "[]")
    wrong = [f"{row.name}: {text!r}" for row, text in zip(rows, texts)
             if not re.fullmatch(re.escape(row.text) + rf"line {row.malformed}: found .+\. Expected: .+\n", text)]
    expected = [re.fullmatch(r"(?:\d+ .*\n)*line 3: found .+\. Expected: (.+)\n", text) for text in texts[len(rows):]]
    wrong += [f"{line}: {it and it[1]}" for (line, part), it in zip(MALFORMED.items(), expected) if not it or part not in it[1]]
    report_if(f"the page in node: {len(runs)} malformed lines have their number and what is expected", len(texts) == len(runs) > len(MALFORMED) and not wrong,
              "\n".join(wrong))
    formats, usages = " ".join(read(f"{TOP}/docs/FORMATS.md").split()), re.search(r"const USAGES = \{(.*?)\n\};", read(path), re.S)[1]
    forms = re.findall(r"(\w+): '(<ms> [^:']*)", usages)
    wrong = [form for verb, form in forms if f"`{form}`" not in formats or form.split()[1] != verb]
    report_if("the page has the lines of ndpctl run as docs/FORMATS.md has them", len(forms) == 14 and not wrong, "\n".join(wrong))


TRIED, A, B, C = "2001:db8::5", "02:00:00:00:00:0a", "02:00:00:00:00:0b", "02:00:00:00:00:0c"


def trial(mac):
    """Returns a solicitation of duplicate address detection."""
    return frames.frame("::", frames.solicited_node(TRIED), mac, bytes([135]) + bytes(7) + frames.packed(TRIED))


def announcement(mac):
    """Returns an advertisement to all nodes, with the flag Override."""
    return frames.frame(TRIED, "ff02::1", mac, bytes([136, 0, 0, 0, 0x20, 0, 0, 0]) + frames.packed(TRIED) + frames.link_layer(2, mac))


# Frames with their moments in milliseconds, and what they say of a duplicate. RFC 4862, 5.4.3 and 5.4.4: while an address is tried, which takes
# RetransTimer, 1,000 ms, an advertisement of it, or a trial by another node, shows a duplicate. In the last two there is none: the second trial is
# later, and one node tries twice, and uses the address then.
DUPLICATES = [([(0, trial(A)), (50, announcement(B))], [f"{TRIED}, tried by {A}, in use at {B}"]),
              ([(0, trial(A)), (50, announcement(A))], [f"{TRIED}, tried by {A}, in use at {A}"]),
              ([(0, trial(A)), (999, trial(B))], [f"{TRIED}, tried by {A} and {B}"]),
              ([(0, announcement(A)), (5000, announcement(B)), (9000, announcement(C))], [f"{TRIED}, used at {A} and {B} and {C}"]),
              ([(0, trial(A)), (1000, trial(B))], []), ([(0, trial(A)), (500, trial(A)), (1500, announcement(A))], [])]


def summary(path, data):
    return json.loads(run(["node", f"{TESTS}/summary.mjs", path], input=data, text=False).stdout or "{}")


def check_summaries_in_node(path):
    """Requires that the page sums up of a capture what is on its link: that of examples/python/link.py, which offers a prefix and has one
    advertisement forged; the frames of a link, whose options are those that tshark 4.0 reads; and duplicates."""
    if not has_node("what a capture says of its link"):
        return
    with open(f"{TOP}/examples/captures/link.pcapng", "rb") as file:
        made = summary(path, file.read())
    wanted = {"Routers": ["fe80::ff:fe00:1 at 02:00:00:00:00:01, for 1,800 s, preference Medium"], "DNS servers": [], "Duplicates": [],
              "Prefixes": ["2001:db8::/64, on the link, hosts form addresses of it, valid for 2,592,000 s, preferred for 604,800 s"],
              "Not valid": ["1 frame: drop 10 HopLimit"]}
    holders = {f"{prefix}::ff:fe00:{last}" for prefix in ("fe80", "2001:db8") for last in "abc"} | {"fe80::ff:fe00:1"}
    is_right = {name: made.get(name) for name in wanted} == wanted and {re.split("[ ,]", it)[0] for it in made.get("Addresses", [])} == holders
    report_if("the page in node: what a capture says of its link", is_right, str(made))
    made = summary(path, read(f"{TOP}/examples/link.hex").encode())
    wanted = {"Routes": ["2001:db8:7::/64 by fe80::ff:fe00:2, for 12 s, preference High",
                         "2001:db8:8:1:2::/80 by fe80::ff:fe00:2, without end, preference Medium",
                         "2001:db8:99::/48 by fe80::1, for 600 s, preference Low"],
              "DNS servers": ["2001:db8::1 without end", "2001:db8::2 without end", "2001:db8::3 without end", "2001:db8::53 for 1,800 s",
                              "2001:db8::54 for 1,800 s"],
              "Search names": ["a.very.long.domain.name.for.the.search.list.example without end", "example.com for 1,800 s",
                               "gone.example, withdrawn", "sub.example.net for 1,800 s"]}
    report_if("the page in node: routes, servers and names of frames", {name: sorted(made.get(name, [])) for name in wanted} == wanted, str(made))
    files = [(captures.pcap_of([bytes.fromhex(frame) for _, frame in rows], [at * 1000 for at, _ in rows]), said) for rows, said in DUPLICATES]
    found = [summary(path, data).get("Duplicates") for data, _ in files]
    report_if(f"the page in node: duplicates, in {len(files)} captures", found == [said for _, said in files], str(found))


# Numbers of a line of a frame, what the page says of them, and the section that names them.
EXPLAINED = {"opt 24 40080000000c": ("24", "Route Information (RFC 4191, 2.3)"), "opt 14 ccdd89fd7fab": ("14", "Nonce (RFC 3971, 5.3.2)"),
             "other 0": ("0", "hop-by-hop options (RFC 8200, 4.3)"), "other 59": ("59", "no next header (RFC 8200, 4.7)"), "other 17": ("17", "UDP"),
             "other 99": ("99", "the next header of the packet"), "opt 99 00": ("99", "the type of an option that is passed over")}


def check_options_in_node(path):
    """Requires that the page says what options of other RFCs and next headers are, and shows the fields of a Route Information option (RFC 4191,
    2.3)."""
    if not has_node("what numbers mean"):
        return
    said = dict(zip(EXPLAINED, results(path, "explained", [["frame", line] for line in EXPLAINED])))
    wrong = [f"{line}: {said[line]}" for line, (number, text) in EXPLAINED.items()
             if not any(word == number and text in it for word, it in said[line])]
    report_if(f"the page in node: what {len(EXPLAINED)} options and next headers are", not wrong, "\n".join(wrong))
    routed = next(bytes.fromhex(frame) for frame, line in rows_of_link() if " opt 24 4008" in line)
    rows = results(path, "fieldsOf", [[list(routed)]])[0]
    at = next(number for number, row in enumerate(rows) if row.get("heading") == "Option: Route Information")
    fields = {row["name"]: row["value"] for row in rows[at + 1:at + 7]}
    wanted = {"option type": "24, Route Information", "option length": "3 × 8 bytes", "prefix length": "64", "preference": "High",
              "route lifetime": "12 s", "prefix": "2001:db8:7::"}
    report_if("the page in node: the fields of a Route Information option", fields == wanted, str(fields))


def numbers_without_meaning(kind, lines, explained):
    """Returns the lines that have a number, behind their first word, of which the page doesn't say what it is."""
    return [f"{kind}: {word} in {line!r}" for line, words in zip(lines, explained) for word, meaning in words[kind == "frame":]
            if re.fullmatch(r"[0-9]+|inf", word) and not meaning]


def check_words_in_node(path):
    """Requires that the page says of each number in the corpus what it is: of the rows of tables, of the lines of frames, and of the lines of a script."""
    if not has_node("what numbers mean"):
        return
    texts = {"output": {line.split(" ", 1)[1] for row in corpus.runs() for line in row.text.splitlines()},
             "frame": {line for _, line in [*corpus.checks(), *rows_of_link()] if line},
             "script": {line for row in corpus.runs() for line in row.script.splitlines() if " rx " not in line}}
    wrong, count = [], 0
    for kind, lines in texts.items():
        lines = sorted(lines)
        explained = results(path, "explained", [[kind, line] for line in lines])
        wrong += numbers_without_meaning(kind, lines, explained)
        wrong += [f"{kind}: {line}" for line, words in zip(lines, explained) if " ".join(word for word, _ in words) != line]
        count += len(lines)
    report_if(f"the page in node: what each number is, in {count} lines", count > 400 and not wrong, "\n".join(wrong[:8]))
    # RFC 4861, 6.3.2: of each, the name of the variable.
    line = "params hop 64 mtu 1500 reachable 30000 15000 retrans 1000 managed 0 other 0"
    said = [meaning.split(",")[0].split(":")[0] for word, meaning in results(path, "explained", [["output", line]])[0] if word.isdigit()]
    wanted = ["CurHopLimit", "LinkMTU", "BaseReachableTime", "ReachableTime", "RetransTimer"]
    report_if("the page in node: the numbers of params have their names", said[:5] == wanted, str(said))


def check_sections_in_node(path):
    """Requires that each frame that is dropped has the section that the test bench for Python names, and a message that its role doesn't take that which says
    so: RFC 4861, 6.1.1 of a host, 8.2 of a router."""
    if not has_node("sections of the RFCs"):
        return
    lines = [(frame, line) for frame, both in changed_frames(STEP) for line in both] + [(frame, line) for frame, line in corpus.checks() if frame]
    dropped = {(int(line.split()[1]), frame) for frame, line in lines if line.startswith("drop ")}
    known = sorted((number, frame) for number, frame in dropped if number != 19)
    own = {int(frame[108:110], 16): frame for number, frame in dropped if number == 19}
    wanted = [section_of_drop(Why(number), bytes.fromhex(frame)) for number, frame in known] + ["RFC 4861, 6.1.1", "RFC 4861, 8.2"]
    calls = [[number, list(bytes.fromhex(frame))] for number, frame in known] + [[19, list(bytes.fromhex(own[kind]))] for kind in (133, 137)]
    said = [section and "RFC {}, {}".format(*section.split()) for section in results(path, "sectionOf", calls)]
    wrong = [f"{number} {frame[:120]}: {is_so}, not {it}" for (number, frame), is_so, it in zip([*known, (19, ""), (19, "")], said, wanted) if is_so != it]
    report_if(f"the page in node: the sections of {len(wanted)} frames that are dropped, of {len({it[0] for it in known})} reasons",
              {it[0] for it in known} == set(range(1, 19)) and len(said) == len(wanted) and not wrong, "\n".join(wrong[:6]))
    asked = next(frame for frame, line in rows_of_link() if line.startswith("ns ") and not line.startswith("ns ::"))
    wanted = [["a host takes no Router Solicitation", ["4861 6.1.1"]], ["a router takes no Redirect", ["4861 8.2"]],
              ["its target or destination is no address of this node, or one that it does not use", ["4861 7.2.3", "4862 5.4.3"]]]
    said = results(path, "notForNode", [[list(bytes.fromhex(frame)), role] for frame, role in ((own[133], "host"), (own[137], "router"), (asked, "host"))])
    report_if("the page in node: why a frame is not for a node", said == wanted, str(said))


def heard_by_an_interface(row):
    """Returns the moments and frames of a row of `ndpctl run`, if the interface of a host passes it each of them, and nothing else happens."""
    options = dict(zip(row.words[1::2], row.words[2::2]))
    lines = [re.fullmatch(r"(\d+) (?:rx ([0-9a-f]{28,})|at)", line) for line in row.script.splitlines()]
    if options["--role"] != "host" or not all(lines):
        return []
    heard, own = [(int(it[1]), bytes.fromhex(it[2])) for it in lines if it[2]], bytes.fromhex(options["--mac"].replace(":", ""))
    return heard if all((it[0] & 1 or it[:6] == own) and it[6:12] != own for _, it in heard) else []


def check_replays_in_node(path):
    """Requires that a host that hears frames of the corpus as a capture does what the corpus says."""
    if not has_node("captures that a host hears"):
        return
    known = [(row, heard, capture) for row in corpus.runs() for heard in [heard_by_an_interface(row)] if heard for capture in captures.captures_of(heard)]
    runs = [[{word[2:]: value for word, value in zip(row.words[1::2], row.words[2::2])}, base64.b64encode(capture).decode(), heard[0][0],
             int(row.script.splitlines()[-1].split()[0])] for row, heard, capture in known]
    said = run(["node", f"{TESTS}/replays.mjs", path], input=json.dumps(runs))
    texts = json.loads(said.stdout or "[]")
    wrong = [f"{row.name}: {difference(text, row.text)}" for text, (row, _, _) in zip(texts, known) if text != row.text]
    report_if(f"the page in node: a host hears {len(known)} captures", len(texts) == len(known) >= 20 and not wrong, said.stderr + "\n".join(wrong[:4]))


def check_examples_in_node(path):
    """Requires that an example of frames is heard by the role that it is for, but for the two that are of what is dropped."""
    if not has_node("the examples"):
        return
    dropped = {"Nineteen ways to spoil a frame": [f"drop {number} {rules.REASONS[number]}" for number in range(1, 20)],
               "What only a host takes": ["drop 19 NotForUs"] * 2}
    wrong = []
    for it in page.examples():
        said = run(["node", f"{TESTS}/lines.mjs", path, it["role"]], input="".join(f"{frame}\n" for frame in it["digits"])).stdout.splitlines()
        are_heard = len(said) == len(it["digits"]) and not any(line.startswith("drop") for line in said)
        wrong += [] if (said == dropped[it["title"]] if it["title"] in dropped else are_heard) else [it["title"]]
    report_if("the page in node: the examples for each role", {it["role"] for it in page.examples()} == {"either", "host", "router"} and not wrong,
              "\n".join(wrong))


def check_made_again(room):
    """Makes the modules of the page again, that of a node with ND_TARGETS=1. Their bytes are compared if the tools are those that the page names: others
    may make other bytes of the same code."""
    if not IS_FULL:
        return skip("what is made again", "`bindings/check full` makes it, which takes some minutes")
    again, names = f"{room}/index.html", list(page.MODULES) if os.environ.get("ND_TARGETS") else ["tell"]
    if "node" not in names:
        skip("other processors", "ND_TARGETS=1 makes the page's module of a node, which takes some minutes")
    said = run([sys.executable, f"{BINDINGS}/targets/page.py", again, *names])
    for line in said.stdout.splitlines():
        if line.startswith("skipped: "):
            skip("what is made again", line.removeprefix("skipped: "))
    if not report_if("targets/page.py", said.returncode == 0, said.stdout + said.stderr) or not os.path.exists(again):
        return None
    (committed, named), (made, here) = (page.parts_of(read(path)) for path in (page.PAGE, again))
    if named == here:
        for name in names:
            is_same = page.unpacked(committed[name]) == page.unpacked(made[name])
            report_if(f"the page's module {name!r} is what its crate is made into", is_same, "make -C bindings page makes it again")
    else:
        skip("what is made again", f"the page's modules were made with {named}, and here is {here}")
        check_in_node("the page that is made here", again)
        check_runs_in_node("the page that is made here", again, room)
    return None


def check_page(room):
    if not os.path.exists(page.PAGE):
        return report_if("docs/try/index.html is there", False, "make -C bindings page makes it")
    text = read(page.PAGE)
    report_if("docs/try/index.html is what bindings/page makes of its modules", page.page_of(*page.parts_of(text)) == text,
              "make -C bindings page makes it again")
    shown = dict(re.findall(r'<tr id="reason-(\d+)"><td><code>\d+ (\w+)</code>', text))
    report_if("the page has each reason of ndpctl check", shown == {str(number): name for number, name in rules.REASONS.items() if number < 20})
    check_made_again(room)
    check_in_node("the page", page.PAGE)
    check_runs_in_node("the page", page.PAGE, room)
    check_longest_in_node("the page", page.PAGE)
    check_captures_in_node("the page", page.PAGE)
    for check in (check_longest_run_in_node, check_longest_capture_in_node, check_faults_in_node, check_words_in_node, check_sections_in_node,
                  check_replays_in_node, check_examples_in_node, check_summaries_in_node, check_options_in_node):
        check(page.PAGE)
