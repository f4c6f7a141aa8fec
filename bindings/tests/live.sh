#!/usr/bin/env bash
# live.sh LOOP: runs examples/c/loop.c on a TAP device in a network namespace of its own. The kernel, at the other end, resolves the address of the node
# (RFC 4861, section 7.2). Prints 'skipped: ..' where a network namespace or a TAP device cannot be made.
set -u
address=fe80::ff:fe00:1 mac=02:00:00:00:00:01
if [ "${2:-}" != inside ]; then
    for tool in unshare ip; do
        command -v "$tool" >/dev/null || { echo "skipped: loop on a TAP device: $tool is not there"; exit 0; }
    done
    unshare -n sh -c 'ip tuntap add nd0 mode tap' 2>/dev/null || { echo 'skipped: loop on a TAP device: it cannot be made'; exit 0; }
    exec unshare -n "$0" "$1" inside
fi
ip tuntap add nd0 mode tap && ip link set nd0 up || exit 1
"$1" nd0 &
loop=$!
trap 'kill $loop 2>/dev/null' EXIT
# The node detects duplicates for at most 2 s, the kernel about as long.
for _ in 1 2 3 4 5 6 7 8; do
    sleep 1
    echo > "/dev/udp/$address%nd0/9"
    ip -6 neigh show "$address" dev nd0 2>/dev/null | grep -q "lladdr $mac.*REACHABLE" && { echo "the kernel reaches $address"; exit 0; }
done 2>/dev/null
ip -6 neigh show dev nd0
echo "the kernel does not reach $address"
exit 1
