"""check_browser: docs/try/index.html in a browser without a window. The frames and scripts of check_page have the lines that they are to have there too. It
opens on two hosts that collide; a malformed line has its number; what is shown is in the address, and an address that is cut is incomplete; a host
hears a capture, and what it sends is drawn; what a field doesn't take is said next to it; and nothing is wider than a narrow window."""
import base64
import html
import json
import os
import re
import shutil

from check_page import all_rows, files_of_link, report_rows, rows_of_link, traced
from checking import TOP, read, report_if, run, skip

import captures  # these are where check_page has found them
import frames
import page
import rules
from nd import Why
from ndbench.sections import section_of_drop

BROWSERS = ("chromium", "chromium-browser", "google-chrome", "google-chrome-stable")
# Of the frames that are cut and changed, so many are passed over before the next one.
STEP = 1499


class Browser:
    """A browser without a window, with a profile of its own. Its clock runs ahead, so that a page that is waited for is not kept long."""

    def __init__(self, program, room):
        self.room = room
        self.words = [program, "--headless", "--no-sandbox", "--disable-gpu", "--disable-dev-shm-usage", f"--user-data-dir={room}/profile",
                      "--virtual-time-budget=600000", "--force-prefers-reduced-motion", "--dump-dom"]

    def page(self, address, until=""):
        """Returns the page as it is once its script has run. It is opened again if it does not have the words `until`: on a busy machine the clock may
        run out before a module is compiled."""
        for _ in range(4):
            text = run([*self.words, address], timeout=180).stdout
            if until in text:
                break
        return text

    def copy(self, path, script):
        """Returns a copy of a page with a script behind its own."""
        copy = f"{self.room}/page.html"
        with open(copy, "w", encoding="utf-8") as file:
            file.write(f"""{read(path)}<script type="module">
const go = (time = 10) => new Promise((then) => setTimeout(then, time));
const find = (id) => document.getElementById(id);
const enter = (id, value) => {{
    find(id).value = value;
    find(id).dispatchEvent(new Event('input', {{ bubbles: true }}));
}};
while (!document.body.dataset.ready) await go();
{script}
document.body.dataset.done = 'yes';
</script>
""")
        return copy

    def after(self, path, script, fragment=""):
        """Returns a page, of a copy, once a script has run behind its own."""
        return self.page(f"file://{self.copy(path, script)}{fragment}", 'data-done="yes"')

    def narrow(self, path, script, width):
        """Returns the `result` of a script in a page of this width. The page is in a frame, since the browser's own window is 500 pixels wide at least."""
        self.copy(path, f"{script}\nparent.postMessage(JSON.stringify(result), '*');")
        with open(f"{self.room}/narrow.html", "w", encoding="utf-8") as file:
            file.write(f"""<!doctype html><iframe src="page.html" width="{width}" height="900" style="border: 0"></iframe>
<script>onmessage = ({{ data }}) => document.body.dataset.said = data;</script>
""")
        said = re.search(r'data-said="(.*?)"', self.page(f"file://{self.room}/narrow.html", "data-said="))
        return json.loads(html.unescape(said[1])) if said else None


def lines_in(text):
    """Returns the lines of a page in the order of their frames."""
    pattern = r'<details class="\w+" data-index="(\d+)"><summary><span class="nr">\d+</span><span><span class="line"><b>(.*?)</b>(.*?)</span>'
    rows = re.findall(pattern, text, re.S)
    return [text_of(bold + behind) for _, bold, behind in sorted(rows, key=lambda row: int(row[0]))]


def text_of(markup):
    """Returns what is read of a part of a page."""
    return html.unescape(re.sub(r"<[^>]*>", "", markup))


def part_of(text, name):
    """Returns the part of a page from the element of this name up to the end of its tab."""
    return re.split(r'<div id="\w+" role="tabpanel"|<section id="proved"', text.split(f'id="{name}"', 1)[-1])[0]


def dropped(data, name, until="document.querySelector('#lists details')"):
    """Returns a script that drops a file on the page, and waits until something is so."""
    return f"""const file = new DataTransfer(), bytes = Uint8Array.from(atob('{base64.b64encode(data).decode()}'), (it) => it.charCodeAt(0));
file.items.add(new File([bytes], '{name}'));
dispatchEvent(new DragEvent('drop', {{ dataTransfer: file, cancelable: true }}));
while (!({until})) await go();"""


def check_opening_in_browser(browser, path):
    """Opens the page with nothing behind its address. RFC 4862, 5.4.3: host 1 answers the solicitation of host 2 for its address; 5.4.4: host 2 finds that
    the address is a duplicate by the answer, and doesn't use it."""
    text = part_of(browser.after(path, ""), "pair")
    arrows = [text_of(it.split("<title>")[0]) for it in re.findall(r'<text class="label".*?</text>', text)]
    notes = {text_of(it.split("<title>")[0]) for it in re.findall(r'<text [^>]*class="note .*?</text>', text)}
    asked, answered = "ns: is the address taken?", "na: I have the address"
    is_shown, is_running = " hidden" not in text.split(">")[0], re.search(r'<svg [^>]*class="\w+ running"', text)
    is_answered = re.search(f".*{re.escape(asked)}.*{answered}", " ".join(arrows)) and {"uses the address", "finds a duplicate"} <= notes
    # The solicitation for routers of host 1: RFC 4861, 6.1.1, hosts discard it.
    meant = "drop 19 NotForUs *the frame is not for this node: a host takes no Router Solicitation: RFC 4861, 6.1.1"
    is_answered = is_answered and re.search(meant, text_of(part_of(text, "pair-lines")))
    report_if("the page in a browser opens on two hosts that collide", is_shown and is_running and is_answered and "Host 1 uses the address." in text,
              f"{arrows} {notes}")


def check_late_frames_in_browser(browser, path):
    """Lets a frame take 3 seconds, and the second host start at 8. RFC 4862, 5.4: a host tries an address for at most a second of delay and a second of
    RetransTimer, so what host 1 sends while it tries arrives before host 2 is there, its answer arrives too late, and both use the address."""
    said = text_of(part_of(browser.after(path, "", "#pair?start=8000&delay=3000"), "outcome"))
    report_if("the page in a browser: two hosts whose frames are late", said.split(">")[1].startswith("Both hosts use the address:"), said[:100])


def check_runs_in_browser(browser, path, room):
    """Chooses each script of the page, and compares what is shown with the output of the example of the command that it is, or with what `trace` prints."""
    for index, it in enumerate(sorted(page.scripts(), key=lambda it: it["role"])):
        words = ["run", "--role", it["role"], "--mac", it["mac"], "--draws", it["draws"]]
        if "example" in it:
            wanted = read(f"{TOP}/examples/scripts/{it['example']}.output").splitlines()
        elif os.path.exists(f"{room}/trace"):
            wanted = traced(room, words, "".join(f"{line}\n" for line in it["lines"])).splitlines()
        else:
            skip("the archives", "trace was not built")
            continue
        text = browser.after(path, f"""find('tab-node').click();
document.querySelectorAll('#scripts button')[{index}].click();
while (document.querySelectorAll('.step').length !== {len(it["lines"])} || find('script').value.split('\\n').length !== {len(it["lines"])}) await go();""")
        shown = [html.unescape(line) for line in re.findall(r' data-line="(.*?)"', part_of(text, "said-lines"))]
        report_if(f"the page in a browser, {it['title']!r}: {len(wanted)} lines", wanted and shown == wanted, "\n".join(shown[:4]))


def check_fault_in_browser(browser, path):
    text = part_of(browser.after(path, """find('tab-node').click();
enter('script', '500 at\\n\\n6000 shw addresses');
while (!document.querySelector('.fault')) await go();"""), "said-lines")
    said = text_of(re.search(r'<div class="fault">(.*?)</div>', text)[1])
    is_right = said.startswith("Line 3, “6000 shw addresses”") and re.search(r"“shw”\. Expected: .*\bshow\b", said)
    report_if("the page in a browser: a malformed line has its number and what is expected", is_right, said)


def check_reasons_in_browser(browser, path):
    """Requires that each frame that is dropped has a link to its section, and that the links to files lead to them."""
    example = next(it for it in page.examples() if it["title"].startswith("Nineteen"))
    text = part_of(browser.after(path, """find('tab-frames').click();
[...document.querySelectorAll('#examples button')].find((it) => it.textContent.startsWith('Nineteen')).click();
while (document.querySelectorAll('#lists details').length !== 19) await go();"""), "lists")
    wanted = [section_of_drop(Why(number), bytes.fromhex(frame)) if number < 19 else "RFC 4861, 6.1.1" for number, frame in enumerate(example["digits"], 1)]
    found = re.findall(r'<summary>.*?<b>drop (\d+) .*?<a class="section" href="(.*?)"', text, re.S)
    links = [(str(number), re.sub(r"RFC (\d+), (.*)", r"https://www.rfc-editor.org/rfc/rfc\1#section-\2", it)) for number, it in enumerate(wanted, 1)]
    report_if("the page in a browser: nineteen reasons, each with a link to its section", found == links, str(found))
    files = re.findall(r'href="([^":#]+)"', read(path))
    places = [os.path.normpath(f"{TOP}/docs/try/{it}") for it in files]
    wanted = [f"{TOP}/{it}" for it in ("README.md", "include/nd.h", "docs/AUDIT.md")]
    report_if("the page has links to README.md, nd.h and AUDIT.md", set(wanted) <= set(places) and all(map(os.path.exists, places)), str(files))


# Of each tab, what is entered by the names of the elements, what is pressed, and what the page then has to show.
STATES = {"pair": ({"pair-start": "300", "pair-delay": "70"}, "pair-lost", "Both hosts use the address"),
          "frames": ({"text": f"{page.examples()[0]['digits'][0]}\nxyz"}, "role-router", "2 frames: 1 message, 0 other packets, 0 dropped, 1 not read"),
          "node": ({"node-role": "router", "node-mac": "02:00:00:00:00:09", "node-draws": "seed:7", "script": "900 at\n\n2000 at"}, None,
                   "assigned fe80::ff:fe00:9"),
          "capture": ({"capture-mac": "02:00:00:00:00:09", "capture-draws": "seed:3", "capture-before": "2500"}, None, "The host hears 3 of 3 frames")}


def check_addresses_in_browser(browser, path):
    """Enters something in each tab, and opens the page anew by the address that it has then: it has to have and to show the same."""
    for tab, (values, pressed, shown) in STATES.items():
        press = f"find('{pressed}').click();" if pressed else ""
        enter = "".join(f"enter('{name}', {json.dumps(value)});" for name, value in values.items())
        text = browser.after(path, f"find('tab-{tab}').click(); await go(500); {enter} {press} await go(500); document.body.dataset.address = location.hash;")
        address = html.unescape((re.search(r'data-address="(.*?)"', text) or ["", ""])[1])
        names = json.dumps([*values, *([pressed] if pressed else [])])
        text = browser.after(path, f"""await go(500);
const has = {names}.map((name) => (/checkbox|radio/.test(find(name).type) ? find(name).checked : find(name).value));
document.body.dataset.has = JSON.stringify([document.querySelector('[aria-selected=true]').id, ...has]);""", address)
        has = json.loads(html.unescape((re.search(r'data-has="(.*?)"', text) or ["", "[]"])[1]))
        wanted = [f"tab-{tab}", *values.values(), *([True] if pressed else [])]
        is_right = address.startswith(f"#{tab}?") and has == wanted and shown in text_of(part_of(text, tab))
        report_if(f"the page in a browser: what is entered on the tab {tab!r} is in its address", is_right, f"{address[:200]} {has}")


def check_capture_in_browser(browser, path):
    """Drops the frames of examples/host.hex on the tab of a capture, with their moments as times, and compares what is shown with examples/host.txt. The
    interface doesn't pass three more to the host (nd.h, FRAMES IN): one of its own, one for another node, and one that the capture has cut."""
    heard = [(int(at), bytes.fromhex(digits)) for at, digits in (line.split() for line in read(f"{TOP}/examples/host.hex").splitlines() if " " in line)]
    lines = [line for line in read(f"{TOP}/examples/host.txt").splitlines() if line[0].isdigit()]
    names = {f" drop {number}": f" drop {number} {name}" for number, name in rules.REASONS.items()} | {" heard 134": " heard ra"}
    wanted = [re.sub(r" (drop|heard) \d+$", lambda it: names[it[0]], line) for line in lines]
    last = heard[-1][1]
    rows = [*heard, (2400, bytes.fromhex(lines[0].split()[2])), (2400, bytes.fromhex("020000000009") + last[6:]), (2400, last[:-1])]
    file = captures.pcap_of([it for _, it in rows], [at * 1000 for at, _ in rows], lengths=[len(it) for _, it in rows[:-1]] + [len(last)])
    text = browser.after(path, dropped(file, "host.pcap", "find('said').textContent.startsWith('host.pcap')") + f"""
enter('capture-mac', '{frames.HOST_MAC}');
enter('capture-before', {heard[0][0]});
await go(500);""", "#capture")
    said = "The host hears 3 of 6 frames, and sends 3. Left out: 1 of its own, 1 for others, 1 not whole or without a time."
    summed = text_of(part_of(text, "capture-sum"))
    report_if("the page in a browser: frames of a capture that a host doesn't hear", said in summed, summed[:300])
    shown = [html.unescape(line) for line in re.findall(r' data-line="(.*?)"', part_of(text, "capture-lines"))]
    report_if(f"the page in a browser: a host hears a capture: {len(wanted)} lines", shown == wanted, "\n".join(shown))
    arrows = re.findall(r'class="arrow (\w+)"', part_of(text, "capture-diagram"))
    moments = [text_of(it.split("<title>")[0]) for it in re.findall(r'<text [^>]*class="moment".*?</text>', part_of(text, "capture-diagram"))]
    counts = {"sent": sum(" tx " in line for line in wanted), "dropped": sum(" drop " in line for line in wanted)}
    counts["given"] = len(heard) - counts["dropped"]
    is_right = {kind: arrows.count(kind) for kind in counts} == counts and len(arrows) == sum(counts.values())
    at = [f"{moment:,} ms" for moment in sorted({int(line.split()[0]) for line in wanted})]
    report_if(f"the page in a browser: {len(arrows)} arrows of a capture, at its times", is_right and moments == at, f"{arrows} {moments}")


def check_stations_in_browser(browser, path):
    """Drops the capture of two Linux hosts on the tab of a capture: each station has a line, and what is not for the host is grey, since no frame is
    wrong. Of the link it says the addresses that examples/README.md names."""
    with open(f"{TOP}/examples/captures/linux.pcap", "rb") as file:
        data = file.read()
    text = browser.after(path, dropped(data, "linux.pcap", "find('said').textContent.startsWith('linux.pcap')") + """
enter('capture-mac', '02:00:00:00:00:0b');
enter('capture-before', '3000');
await go(500);
const colourOf = (it) => getComputedStyle(it)[it.matches('text') ? 'fill' : 'stroke'];
const colour = (kind) => [...new Set([...document.querySelectorAll(`#capture-diagram .${kind}.aside`)].map(colourOf))];
document.body.style.color = getComputedStyle(document.documentElement).getPropertyValue('--quiet');
const quiet = getComputedStyle(document.body).color;
document.body.dataset.colours = JSON.stringify([colour('arrow'), colour('note'), quiet]);""", "#capture")
    picture = (re.search(r"<svg.*?</svg>", part_of(text, "capture-diagram"), re.S) or [""])[0]
    link = part_of(text, "capture-link").split('id="capture-does"')[0]
    kinds = re.findall(r'class="arrow (\w+)"', picture)
    colours = json.loads(html.unescape((re.search(r'data-colours="(.*?)"', text) or ["", "[]"])[1]))
    is_grey = "aside" in kinds and "dropped" not in kinds and len(colours) == 3 and colours[0] == colours[1] == [colours[2]]
    is_grey = is_grey and "drop 19" not in re.sub("<title>.*?</title>", "", picture)
    report_if("the page in a browser: frames that are not for the host are grey", is_grey, f"{kinds} {colours}")
    stations = "Stations: A 02:00:00:00:00:0b, B 02:00:00:00:00:0a. A is the host here."
    report_if("the page in a browser: a line for each station", picture.count('class="lifeline"') == 2 and stations in text_of(text), picture[:400])
    said = re.sub(r"\s+", " ", text_of(link.replace("</div>", " ").replace("</th>", " ").replace("</td>", " ")))
    wanted = [f"2001:db8::{last} at 02:00:00:00:00:0{last} " for last in "ab"]
    wanted += ["Duplicates none seen", "Routers none seen", "DNS servers none seen"]
    report_if("the page in a browser: what a capture says of its link", all(it in said for it in wanted), said)


# What a page shows in a narrow window once an address or a file is opened, or a field has another value.
SHOWN = """const result = {}, shown = (id) => find(id).checkVisibility() && find(id).textContent.trim();
const open = async (address) => {
    location.hash = address;
    await go(1500);
};
const drop = async (tab, name, text) => {
    await open(tab);
    const file = new DataTransfer();
    file.items.add(new File([Uint8Array.from(atob(text), (it) => it.charCodeAt(0))], name));
    dispatchEvent(new DragEvent('drop', { dataTransfer: file, cancelable: true }));
    while (!location.hash.includes('?')) await go();
};
const type = async (id, value) => {
    enter(id, value);
    await go(1500);
};
const isInView = (id) => find(id).getBoundingClientRect().bottom + scrollY < 800;
const isBelow = (id, input) => find(id).getBoundingClientRect().top - find(input).getBoundingClientRect().bottom < 20;
"""


def shown_in(browser, path, script):
    return browser.narrow(path, SHOWN + script, NARROW) or {}


def check_cut_links_in_browser(browser, path):
    """Opens the page by links of which the end is missing, and by one that has something else in place of frames."""
    found = shown_in(browser, path, """await open('#capture');
find('capture-example').click();
await go(1500);
const link = location.hash;
await open(link);
result.whole = shown('address-fault');
await open(link.slice(0, -100));
result.cut = shown('address-fault');
await open(`${link}zz`);
result.changed = shown('address-fault');
await open('#node?size=20&script=500+at');
result.script = shown('address-fault');
await open('#pair?start=300');
result.short = shown('address-fault');""")
    wanted = {"whole": False, "short": False, "script": "The address is incomplete: it has 6 of 20 characters. Ask for the whole of it."}
    is_right = all(found.get(name) == it for name, it in wanted.items()) and " of 3 frames, of which the last may be cut" in str(found.get("cut"))
    is_right = is_right and "in place of a frame" in str(found.get("changed"))
    report_if("the page in a browser: an address that is cut is incomplete", is_right, str(found))


def check_opened_rows_in_browser(browser, path):
    """Requires that an address has the rows that are opened, and the times of a capture that is on the tab of frames."""
    data = base64.b64encode(captures.pcap_of([bytes.fromhex(frame) for frame, _ in rows_of_link()])).decode()
    found = shown_in(browser, path, f"""await drop('#frames', 'a.pcap', '{data}');
document.querySelectorAll('#lists summary')[1].click();
await go(500);
const link = location.hash;
await open('#pair');
await open(link);
result.open = [...document.querySelectorAll('#lists details')].map((it) => it.open);
result.replays = shown('replay-these');""")
    is_right = found.get("open") == [it == 1 for it in range(len(rows_of_link()))] and found.get("replays") == "Replay them at a host"
    report_if("the page in a browser: opened rows and a capture's times are in the address", is_right, str(found))


def check_copies_in_browser(browser, path):
    """Copies the address of a page that is a file: without the place of the file. What is said of that ends with the next change."""
    found = shown_in(browser, path, """navigator.clipboard.writeText = async (text) => { result.copied = text; };
result.button = find('link').innerText;
find('link').click();
await go(300);
result.said = shown('said');
find('tab-node').click();
await go(500);
result.later = shown('said');""")
    is_right = str(found.get("copied")).startswith("#pair?start=2000") and "behind the end of its address" in str(found.get("said"))
    is_right = is_right and found.get("button") == "Copy what is shown"  # what is behind that is for wide windows
    report_if("the page in a browser: a file's address is copied from # on", is_right and found.get("later") == "", str(found))


def check_faults_of_fields_in_browser(browser, path):
    """Enters in each tab what a field doesn't take. The page has to say so next to the field, with its label, and to take an address with hyphens."""
    found = shown_in(browser, path, """await type('pair-start', '-5');
result.start = [shown('pair-fault'), find('pair-start').getAttribute('aria-invalid'), isInView('pair-fault')];
await open('#node');
await type('node-mac', '02:00');
result.mac = [shown('node-fault'), find('node-mac').getAttribute('aria-invalid'), isInView('node-fault')];
await type('node-mac', '02-00-00-00-00-09');
result.hyphens = [shown('node-fault'), document.querySelectorAll('#said-lines .assigned').length > 0];
await type('script', '500 at\\n600 at\\n6000 shw addresses');
result.line = [shown('node-near').slice(0, 6), isBelow('node-near', 'script')];
await open('#capture');
await type('capture-draws', 'word');
const colour = (element) => getComputedStyle(element).color;
result.draws = [shown('capture-fault').slice(0, 20), colour(find('capture-fault')) === colour(find('node-near').firstChild)];
await open('#frames');
await type('text', '00');
result.text = [shown('frames-near').slice(0, 8), isBelow('frames-near', 'text')];""")
    wanted = {"start": ["The second host starts at: found “-5”. Expected: a whole number from 0 to 8000", "true", True],
              "mac": ["Ethernet address: found “02:00”. Expected: six pairs of hexadecimal digits, such as 34:56:78:9a:bc:de", "true", True],
              "hyphens": [False, True], "line": ["Line 3", True], "draws": ["Random delays: found", True], "text": ["1 frame:", True]}
    report_if(f"the page in a browser, {NARROW} pixels wide: results and faults are next to what is entered", found == wanted, str(found))


def check_files_in_browser(browser, path):
    """Opens files that have no frames, or those of one sender: both tabs give the same reason, and the host of a replay is one that hears."""
    frame = bytes.fromhex(rows_of_link()[0][0])
    capture = captures.pcap_of([frame])
    files = {"text": read(f"{TOP}/README.md").encode(), "link": capture[:20] + (113).to_bytes(4, "little") + capture[24:],
             "sole": captures.pcap_of([frame[:6] + bytes.fromhex("020000000007") + frame[12:]] * 3)}
    drops = "".join(f"""for (const tab of ['frames', 'capture']) {{
    await drop(`#${{tab}}`, '{name}', '{base64.b64encode(data).decode()}');
    result[`{name} ${{tab}}`] = shown(tab === 'frames' ? 'sum' : 'capture-sum');
}}
""" for name, data in files.items())
    found = shown_in(browser, path, drops)
    faults = {"text": "This file can't be read: neither a capture nor frames in hexadecimal.",
              "link": "This file can't be read: a frame of link type 113: only Ethernet (type 1) is read."}
    are_same = all(found.get(f"{name} {tab}") == fault for name, fault in faults.items() for tab in ("frames", "capture"))
    sole = str(found.get("sole capture"))
    is_other = sole.startswith("The host hears 3 of 3 frames") and "of one node, 02:00:00:00:00:07: the host here is another one." in sole
    report_if("the page in a browser: files without frames, and those of one sender", are_same and is_other, str(found))


def check_hints_in_browser(browser, path):
    """Pastes a frame in lines, and one without its Ethernet header."""
    digits = rows_of_link()[0][0]
    lines = "\\n".join(digits[at:at + 32] for at in range(0, len(digits), 32))
    found = shown_in(browser, path, f"""await open('#frames');
await type('text', '{lines}');
document.querySelector('.hint button').click();
await go(500);
result.joined = find('text').value;
await type('text', '{digits[28:]}');
result.raw = shown('lists');""")
    is_right = found.get("joined") == digits and "is its Ethernet header missing?" in str(found.get("raw"))
    report_if("the page in a browser: hints for lines of one frame and for a missing header", is_right, str(found))


def check_texts_in_browser(browser, path):
    """Requires that in a narrow picture no text overlaps another one, and that each is drawn over all arrows."""
    found = shown_in(browser, path, """result.wrong = [];
for (const values of ['start=2000&delay=1500', 'start=0&delay=1100', 'start=0&delay=0', 'start=300&delay=70', 'start=1000&delay=400&lost=yes']) {
    await open(`#pair?${values}`);
    const svg = find('diagram').querySelector('svg'), children = [...svg.children], isText = (it) => it.matches('.note, .label');
    const texts = children.filter(isText).map((it) => [it, it.getBoundingClientRect()]);
    for (const [at, [one, a]] of texts.entries()) {
        for (const [other, b] of texts.slice(at + 1)) {
            const isApart = a.right <= b.left || b.right <= a.left || a.bottom <= b.top + 3 || b.bottom <= a.top + 3;
            if (!isApart) result.wrong.push(`${values}: ${one.firstChild.data} and ${other.firstChild.data}`);
        }
    }
    const first = children.findIndex(isText), last = children.findLastIndex((it) => it.matches('.arrow'));
    if (first < last || texts.length < 5) result.wrong.push(`${values}: the arrows are not below the texts`);
}""")
    report_if(f"the page in a browser, {NARROW} pixels wide: no text of a picture covers another one", found.get("wrong") == [], str(found))
    found = shown_in(browser, path, f"""await open('#frames');
await type('text', '{rows_of_link()[1][0]}');
document.querySelector('#lists summary').click();
await go(500);
const parts = [...document.querySelectorAll('#lists bdi')].flatMap((it) => [...it.childNodes]).filter((it) => it.nodeType === 3);
const lines = (part) => (range.selectNodeContents(part), range.getClientRects().length), range = new Range();
result.parts = parts.length;
result.broken = parts.filter((it) => lines(it) > 1).map((it) => it.data);""")
    is_right = found.get("parts", 0) > 20 and found.get("broken") == []
    report_if(f"the page in a browser, {NARROW} pixels wide: addresses are broken behind colons alone", is_right, str(found))


NARROW = 420
# What a page finds of itself in a narrow window: how wide it is, what is wider, and where the results are once an example is pressed.
LOOK = """const result = { width: innerWidth, wide: [], results: [] };
const look = (where) => {
    for (const it of document.querySelectorAll('body *:not(defs *)')) {
        const { left, right, width } = it.getBoundingClientRect();
        if (width > 0 && (left < -1 || right > innerWidth + 1)) result.wide.push(`${where}: ${it.tagName} ${it.textContent.slice(0, 40)} ${left}..${right}`);
    }
    if (document.documentElement.scrollWidth > innerWidth) result.wide.push(`${where}: the page scrolls sideways`);
    for (const it of document.querySelectorAll('svg[viewBox]')) {
        const { width } = it.getBoundingClientRect();
        if (width > 0 && width < it.viewBox.baseVal.width - 1) result.wide.push(`${where}: a picture is made smaller, and its letters with it`);
    }
};
const results = { frames: 'results', node: 'said-lines', capture: 'capture-sum' };
for (const tab of document.querySelectorAll('[role=tab]')) {
    tab.click();
    await go(500);
    const panel = find(tab.getAttribute('aria-controls'));
    for (const details of panel.querySelectorAll('details')) details.open = true;
    look(tab.id);
    for (const button of panel.querySelectorAll('.examples button, #capture-example')) {
        scrollTo(0, 0);
        button.click();
        await go(500);
        result.results.push([button.textContent, find(results[panel.id]).getBoundingClientRect().top]);
        for (const details of panel.querySelectorAll('details')) details.open = true;
        await go(50);
        look(button.textContent);
    }
}"""


def check_narrow_in_browser(browser, path):
    """Requires that in a narrow window nothing is off the screen, and that the results of an example that is pressed come into view."""
    found = browser.narrow(path, LOOK, NARROW) or {"width": 0, "wide": ["the page said nothing"], "results": []}
    count = len(page.examples()) + len(list(page.scripts())) + 1
    report_if(f"the page in a browser, {NARROW} pixels wide: nothing is wider", found["width"] == NARROW and not found["wide"], "\n".join(found["wide"][:6]))
    hidden = [it for it in found["results"] if not -1 <= it[1] <= 450]
    report_if(f"the page in a browser, {NARROW} pixels wide: the results of {count} examples are in view", len(found["results"]) == count and not hidden,
              str(hidden))


def check_link_in_browser(browser, path):
    """Opens the page by a link in capitals, and then a tab. Asks for what its policy forbids: nothing may be fetched."""
    text = browser.after(path, """find('tab-pair').click();
while (!document.querySelector('#diagram svg')) await go();""", f"#HOST:{rows_of_link()[1][0].upper()}")
    report_if("the page in a browser, by a link in capitals", 'data-done="yes"' in text and len(lines_in(text)) == 1, text[-1000:])
    text = browser.after(path, """addEventListener('securitypolicyviolation', (event) => document.body.dataset.forbidden = event.effectiveDirective);
fetch('data:,').catch(() => {});
for (let i = 0; i < 100 && !document.body.dataset.forbidden; i++) await go();""")
    report_if("the page in a browser fetches nothing", 'data-forbidden="connect-src"' in text, text[-1000:])


def check_browser(room):
    """Tries the page in the first of the browsers that is there."""
    path = page.PAGE
    program = next(filter(None, map(shutil.which, BROWSERS)), None)
    if not program:
        return skip("the page in a browser", "chromium is not there (Debian: chromium)")
    browser = Browser(program, room)
    if "it runs" not in browser.page("data:text/html,<p>it runs</p>"):
        return skip("the page in a browser", f"{os.path.basename(program)} shows no page here")
    for name, role, rows in all_rows(STEP):
        before = "" if role == "either" else f"{role}:"
        text = browser.after(path, "", f"#{before}{','.join(frame for frame, _ in rows)}")
        report_rows(f"the page in a browser, {name}", rows, lines_in(text))
    rows = rows_of_link()
    for name, data in files_of_link().items():
        report_rows(f"the page in a browser, {name} dropped on it", rows, lines_in(browser.after(path, dropped(data, name))))
    check_link_in_browser(browser, path)
    check_opening_in_browser(browser, path)
    check_runs_in_browser(browser, path, room)
    for check in (check_late_frames_in_browser, check_fault_in_browser, check_reasons_in_browser, check_addresses_in_browser, check_capture_in_browser,
                  check_stations_in_browser,
                  check_narrow_in_browser, check_cut_links_in_browser, check_opened_rows_in_browser, check_copies_in_browser,
                  check_faults_of_fields_in_browser, check_files_in_browser, check_hints_in_browser, check_texts_in_browser):
        check(browser, path)
    return None
