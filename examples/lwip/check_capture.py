#!/usr/bin/env python3
"""check_capture.py PCAP MAC: looks at the frames that MAC sent. None is malformed, and solicitations are paced as RFC 4861 and RFC 4862 say. Prints
`passed: ..` or `FAILED: ..` of each of the two."""
import collections
import ipaddress
import struct
import sys

RS, RA, NS, NA = 133, 134, 135, 136
LEAST_GAP = 0.98  # of seconds: RetransTimer is one second, and the clock of the stack counts milliseconds
RS_GAP = 3.98


def frames_of(path, mac):
    """Yields the time, the length on the wire and the bytes of each frame that is from `mac`."""
    with open(path, "rb") as file:
        data = file.read()
    order = "<" if data[:4] in (b"\xd4\xc3\xb2\xa1", b"\x4d\x3c\xb2\xa1") else ">"
    scale = 1e9 if struct.unpack(order + "I", data[:4])[0] == 0xA1B23C4D else 1e6
    at = 24
    while at + 16 <= len(data):
        seconds, part, kept, length = struct.unpack_from(order + "4I", data, at)
        frame = data[at + 16:at + 16 + kept]
        at += 16 + kept
        if frame[6:12] == mac:
            yield seconds + part / scale, length, frame


def sum_is_right(source, destination, protocol, body):
    words = source + destination + struct.pack(">II", len(body), protocol) + body + b"\0" * (len(body) % 2)
    total = sum(struct.unpack(f">{len(words) // 2}H", words))
    while total >> 16:
        total = (total & 0xFFFF) + (total >> 16)
    return total == 0xFFFF


def options_of(body, at):
    """The options of a message by their types, or None where one is not whole."""
    options = {}
    while at < len(body):
        if at + 2 > len(body) or body[at + 1] == 0 or at + 8 * body[at + 1] > len(body):
            return None
        options[body[at]] = body[at + 2:at + 8 * body[at + 1]]
        at += 8 * body[at + 1]
    return options


def solicited_node(target):
    return bytes.fromhex("ff0200000000000000000001ff") + target[13:]


def fault_of_message(mac, source, destination, hop_limit, body):
    """What is wrong with a message of Neighbor Discovery, or None."""
    kind, rest = body[0], {RS: 8, NS: 24, NA: 24}.get(body[0])
    if rest is None:
        return f"type {kind} from a host"
    if hop_limit != 255 or body[1] != 0 or len(body) < rest:
        return "hop limit, code or length"
    options = options_of(body, rest)
    if options is None:
        return "an option that is not whole"
    if any(options[option][:6] != mac for option in options if option in (1, 2)):
        return "a link-layer address that is not its own"
    target = body[8:24]
    unspecified = source == bytes(16)
    if kind in (RS, NS) and unspecified == (1 in options) and (unspecified or kind == NS and destination[0] == 0xFF):
        return "a source link-layer address where none may be, or none where one has to be"
    if kind == NS and (target[0] == 0xFF or destination not in (target, solicited_node(target)) or unspecified and destination == target):
        return "a target or a destination of a solicitation"
    if kind == NA and (unspecified or body[4] & 0x40 and destination[0] == 0xFF or body[4] & 0x80 or destination[0] == 0xFF and 2 not in options):
        return "an advertisement's source, flags or option"
    return None


def fault_of(mac, length, frame):
    """What is wrong with a frame, or None."""
    if length != len(frame) or length > 1514 or frame[12:14] != b"\x86\xdd" or len(frame) < 54 or frame[14] >> 4 != 6:
        return "no IPv6 frame"
    size, protocol, hop_limit = struct.unpack_from(">HBB", frame, 18)
    source, destination, body = frame[22:38], frame[38:54], frame[54:]
    if size != len(body):
        return "payload length"
    if source[0] == 0xFF or destination == bytes(16):
        return "source or destination"
    if (frame[0] & 1) != (destination[0] == 0xFF) or destination[0] == 0xFF and frame[:6] != b"\x33\x33" + destination[12:]:
        return "Ethernet destination"
    if protocol == 0:  # the Router Alert of a listener report
        protocol, body = body[0], body[8 * (body[1] + 1):]
    if protocol in (6, 17, 58) and not sum_is_right(source, destination, protocol, body):
        return "checksum"
    if protocol == 58 and 133 <= body[0] <= 137:
        return fault_of_message(mac, source, destination, hop_limit, body)
    return None


def pacing_faults(frames):
    """What is wrong with the moments of solicitations of one kind for one target, and how many of each kind there are."""
    faults, moments = [], collections.defaultdict(list)
    for time, _, frame in frames:
        if frame[20] == 58 and frame[54] in (RS, NS):
            target = frame[62:78] if frame[54] == NS else b""
            kind = "RS" if frame[54] == RS else "detection" if frame[22:38] == bytes(16) else "multicast" if frame[38] == 0xFF else "unicast"
            moments[kind, target].append(time)
    for (kind, target), times in moments.items():
        least = RS_GAP if kind == "RS" else LEAST_GAP
        close = [(a, b) for a, b in zip(times, times[1:]) if b - a < least]
        if close:
            faults.append(f"{kind} {ipaddress.IPv6Address(target) if target else ''}: {min(b - a for a, b in close):.3f} s")
    counts = collections.Counter()
    for (kind, _), times in moments.items():
        counts[kind] += len(times)
    return faults, counts


def main():
    mac = bytes.fromhex(sys.argv[2].replace(":", ""))
    frames = list(frames_of(sys.argv[1], mac))
    wrong = [(time, fault, frame) for time, length, frame in frames if (fault := fault_of(mac, length, frame))]
    print(f"{'passed' if frames and not wrong else 'FAILED'}: capture, {len(frames)} frames of the stack, {len(wrong)} malformed")
    for time, fault, frame in wrong[:5]:
        print(f"  {fault}: {frame.hex()}")
    faults, counts = pacing_faults(frames)
    text = ", ".join(f"{count} {kind}" for kind, count in sorted(counts.items()))
    print(f"{'passed' if counts and not faults else 'FAILED'}: capture, solicitations are paced: {text}")
    for fault in faults[:5]:
        print(f"  too soon: {fault}")


main()
