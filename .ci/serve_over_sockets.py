#!/usr/bin/env python3
"""Serves examples/two.toml to two XVC clients over loopback, and compares what each is given with what IEEE 1149.1 and the protocol have.

usage: serve_over_sockets.py PROGRAM EXAMPLES

The first client stops within a scan: the second has to wait for its identification until that scan is done, and is then given the same bits
as if it were alone. All waiting is bounded; the program is ended by its process number. Where its ports are in use nothing is compared.
"""
import select
import socket
import struct
import subprocess
import sys

SECONDS = 60
GREETING = b"xvcServer_v1.0:2048\n"

# The identification 1ABCD00F stands lowest bit first behind four edges on which no device drives TDO, which reads as 1.
IDENTIFICATION = 0x1ABCD00F


def shift(bits, tms):
    """A message `shift:` of so many bits with this TMS, the first in the lowest bit, and TDI 0."""
    size = (bits + 7) // 8
    return b"shift:" + struct.pack("<I", bits) + tms.to_bytes(size, "little") + bytes(size)


def reply(bits, tdo):
    return tdo.to_bytes((bits + 7) // 8, "little")


def receive(peer, count):
    peer.settimeout(SECONDS)
    data = b""
    while len(data) < count:
        more = peer.recv(count - len(data))
        if not more:
            break
        data += more
    return data


def expect(what, got, wanted):
    if got != wanted:
        sys.exit(f"serve_over_sockets: {what}: {got.hex()} in place of {wanted.hex()}")


def is_silent(peer, seconds):
    return not select.select([peer], [], [], seconds)[0]


def run(program, folder):
    server = subprocess.Popen([program, "serve", "two.toml"], cwd=folder, stdout=subprocess.PIPE)
    try:
        if not select.select([server.stdout], [], [], SECONDS)[0]:
            sys.exit("serve_over_sockets: it does not say that it serves")
        line = server.stdout.readline()
        if line == b"poll fault\n":
            print("serve_over_sockets: not played, since it cannot listen at the ports 2542 and 2543")
            return
        expect("its first line", line, b"serving\n")
        first = socket.create_connection(("127.0.0.1", 2542), SECONDS)
        second = socket.create_connection(("127.0.0.1", 2543), SECONDS)
        first.sendall(b"getinfo:")
        expect("the greeting", receive(first, len(GREETING)), GREETING)

        # To Shift-DR: the scan is open now.
        first.sendall(shift(4, 0b0010))
        expect("four edges", receive(first, 1), reply(4, 0b1111))

        # The other waits.
        whole = shift(38, 0b11 << 35 | 0b0010)
        for at in range(0, len(whole), 3):
            second.sendall(whole[at : at + 3])
        if not is_silent(second, 0.5):
            sys.exit("serve_over_sockets: the second did not wait for the open scan")

        # The scan is done, and both have their identification.
        first.sendall(shift(34, 0b11 << 31))
        expect("the rest of the first scan", receive(first, 5), reply(34, 0b11 << 32 | IDENTIFICATION))
        expect("the second scan", receive(second, 5), reply(38, 0b11 << 36 | IDENTIFICATION << 4 | 0b1111))

        # A drop ends a session, which is told by a line.
        second.close()
        expect("its next line", server.stdout.readline(), b"grant 2 gone %d\n" % len(whole))
    finally:
        server.kill()
        server.wait()
    print("serve_over_sockets: two clients were given what they are alone")


run(*sys.argv[1:])
