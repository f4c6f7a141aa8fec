#!/usr/bin/env python3
"""link.py: the other end of the link, for `live`.
    link.py echo ADDRESS BYTES             UDP and TCP echo on port 7
    link.py strangers DEVICE ADDRESS N     N datagrams to port 7, each of another neighbour, that is not there
    link.py flood DEVICE ADDRESS N         N solicitations of ADDRESS, each of another neighbour, that is not there
The last argument of `strangers` and `flood` is how many are sent in a second."""
import ipaddress
import os
import socket
import struct
import sys
import threading
import time


def echo(address, size):
    udp = socket.socket(socket.AF_INET6, socket.SOCK_DGRAM)
    udp.settimeout(2)
    same = 0
    for index in range(20):
        message = os.urandom(1 + index * 60)
        udp.sendto(message, (address, 7))
        try:
            same += udp.recv(4096) == message
        except TimeoutError:
            pass
    print("udp", same)
    tcp = socket.create_connection((address, 7), timeout=10)
    sent, received = os.urandom(size), bytearray()

    def receive():
        while len(received) < size and (part := tcp.recv(65536)):
            received.extend(part)

    thread = threading.Thread(target=receive)
    thread.start()
    begin = time.monotonic()
    tcp.sendall(sent)
    thread.join(30)
    print("tcp", len(received), "same" if bytes(received) == sent else "different", f"{size / (time.monotonic() - begin) / 1e6:.1f} MB/s")


def checksum(source, destination, protocol, body):
    words = source + destination + struct.pack(">II", len(body), protocol) + body + b"\0" * (len(body) % 2)
    total = sum(struct.unpack(f">{len(words) // 2}H", words))
    while total >> 16:
        total = (total & 0xFFFF) + (total >> 16)
    return struct.pack(">H", total ^ 0xFFFF)


def spoof(device, address, count, rate, make):
    """Sends frames of `count` neighbours that are not there. `make` gives the protocol, where the checksum is, and the body of each."""
    wire = socket.socket(socket.AF_PACKET, socket.SOCK_RAW)
    wire.bind((device, 0))
    target = ipaddress.IPv6Address(address).packed
    begin = time.monotonic()
    for index in range(count):
        source = target[:8] + b"\x0b\xad" + os.urandom(6)
        mac = b"\x02" + os.urandom(5)
        protocol, at, body = make(target, mac)
        body = body[:at] + checksum(source, target, protocol, body) + body[at + 2:]
        header = bytes.fromhex("020000000007") + mac + b"\x86\xdd" + struct.pack(">IHBB", 6 << 28, len(body), protocol, 255)
        wire.send(header + source + target + body)
        time.sleep(max(0.0, begin + index / rate - time.monotonic()))
    print("sent", count)


def datagram(_target, _mac):
    return 17, 6, struct.pack(">HHHH", 4000, 7, 16, 0) + b"stranger"


def solicitation(target, mac):
    return 58, 2, bytes([135, 0, 0, 0, 0, 0, 0, 0]) + target + b"\x01\x01" + mac


if sys.argv[1] == "echo":
    echo(sys.argv[2], int(sys.argv[3]))
else:
    spoof(sys.argv[2], sys.argv[3], int(sys.argv[4]), float(sys.argv[5]), datagram if sys.argv[1] == "strangers" else solicitation)
