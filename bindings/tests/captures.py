"""captures: frames in files, as tcpdump and Wireshark write them."""
import struct


def pcap_of(frames, times=None, order="<", magic=0xA1B2C3D4, units=10**6, lengths=None):
    """Returns a capture of frames, as tcpdump writes it. Their times are in parts of a second, of which it has so many. The lengths are those that they had
    on the link, or their own."""
    head = struct.pack(f"{order}IHHiIII", magic, 2, 4, 0, 0, 65535, 1)
    rows = zip(frames, times or [0] * len(frames), lengths or [len(it) for it in frames])
    return head + b"".join(struct.pack(f"{order}IIII", *divmod(time, units), len(it), length) + it for it, time, length in rows)


def block(kind, body):
    padded = body + bytes(-len(body) % 4)
    return struct.pack(">II", kind, len(padded) + 12) + padded + struct.pack(">I", len(padded) + 12)


def pcapng_of(frames, lengths=None, times=None):
    """Returns a capture of frames, as Wireshark writes it on a big-endian processor. The blocks say that the frames have these lengths, or their own. The
    times are in nanoseconds since 1970. There are two interfaces, which have the frames in turn: the times of the first are in nanoseconds and begin 5
    seconds after 1970, as its options say, those of the second, without options, in microseconds since 1970."""
    options, moved = struct.pack(">HHB3xHHqHH", 9, 1, 9, 14, 8, 5, 0, 0), 5 * 10**9
    interfaces = b"".join(block(1, struct.pack(">HHI", 1, 0, 65535) + it) for it in (options, b""))
    rows = enumerate(zip(frames, lengths or [len(it) for it in frames], times or [moved] * len(frames)))
    blocks = [struct.pack(">IQII", at % 2, time // 1000 if at % 2 else time - moved, length, length) + it for at, (it, length, time) in rows]
    return block(0x0A0D0D0A, struct.pack(">IHHq", 0x1A2B3C4D, 1, 0, -1)) + interfaces + b"".join(block(6, it) for it in blocks)


def dump_of(frames):
    """Returns frames as tcpdump -xx prints them."""
    lines = []
    for number, frame in enumerate(frames):
        lines.append(f"10:00:{number:02}.000000 IP6 fe80::1 > ff02::1: ICMP6, length {len(frame) - 54}")
        for at in range(0, len(frame), 16):
            lines.append(f"\t0x{at:04x}:  " + " ".join(frame[i:i + 2].hex() for i in range(at, min(at + 16, len(frame)), 2)))
    return ("\n".join(lines) + "\n").encode()


def captures_of(heard):
    """Returns captures of frames with their moments in milliseconds, of four kinds. A time within a millisecond is of that one."""
    moments, digits = zip(*heard)
    since = 1_700_000_000
    yield pcap_of(digits, [since * 10**6 + at * 1000 for at in moments])
    yield pcap_of(digits, [since * 10**6 + at * 1000 for at in moments], ">")
    yield pcap_of(digits, [since * 10**9 + at * 10**6 + number for number, at in enumerate(moments)], "<", 0xA1B23C4D, 10**9)
    yield pcapng_of(digits, None, [since * 10**9 + at * 10**6 + number for number, at in enumerate(moments)])
