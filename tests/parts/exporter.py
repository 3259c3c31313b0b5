#!/usr/bin/env python3
"""Sends flows as they happen, until a time, and keeps its own sums: exporter.py udp|tcp PORT NUMBER END TEMPLATES [FORGED]

It sends from 127.0.1.NUMBER to PORT of 127.0.0.1, some messages a second of some flows each, with its template in front, and
again every TEMPLATES seconds (0: never again). When a connection breaks it opens another one, whose sequence numbers begin
at 0. END and FORGED are seconds since 1970-01-01 UTC. The first message from FORGED on has one flow of 2^64 - 1 octets, and
one more.

For each message with flows, which have a source address of their own, a line on standard output has when it was sent, the
own port of the connection (of datagrams it stays the same), and the row of a table by exporter, address and minute that the
flows add up to."""
import random
import socket
import struct
import sys
import time

MINUTE = 60000
TEMPLATE = struct.pack('>14H', 2, 28, 256, 5, 152, 8, 153, 8, 8, 4, 1, 8, 2, 8)


def message(domain, sequence, sets):
    return struct.pack('>HHIII', 10, 16 + len(sets), int(time.time()), sequence, domain) + sets


def open_socket(kind, own, target):
    """A socket with an own address: of datagrams, or a connection, as soon as there is somebody who listens."""
    if kind == 'udp':
        out = socket.socket(socket.AF_INET, socket.SOCK_DGRAM)
        out.bind((own, 0))
        return out
    while True:
        out = socket.socket()
        out.bind((own, 0))
        try:
            out.connect(target)
            return out
        except ConnectionError:
            out.close()
            time.sleep(0.1)


def main(kind, port, number, end, templates, forged=None):
    target, number, end, templates = ('127.0.0.1', int(port)), int(number), float(end), float(templates)
    own, chance, sent = f'127.0.1.{number}', random.Random(number), 0
    forged = float(forged) if forged else end
    out, sequence, due = None, 0, 0
    while time.time() < end:
        try:
            if out is None:
                out, sequence, due = open_socket(kind, own, target), 0, 0
            now = time.time()
            if now >= due:
                out.sendto(message(number, sequence, TEMPLATE), target)
                due = now + templates if templates > 0 else end
            counts = [(chance.randint(40, 60000), chance.randint(1, 40)) for _ in range(chance.randint(1, 12))]
            if now >= forged:
                counts, forged = [(2**64 - 1, 1), (1, 1)], end
            at, address = int(now * 1000), (10, number, sent >> 8, sent & 255)
            flows = b''.join(struct.pack('>QQ4BQQ', at, at, *address, *of) for of in counts)
            row = [at // MINUTE * MINUTE, at // MINUTE * MINUTE + MINUTE - 1, own, '.'.join(map(str, address))]
            row += [sum(octets for octets, _ in counts), sum(packets for _, packets in counts), len(counts)]
            print(f'{now:.3f}', out.getsockname()[1], ','.join(map(str, row)), flush=True)
            sent += 1
            out.sendto(message(number, sequence, struct.pack('>HH', 256, 4 + len(flows)) + flows), target)
            sequence += len(counts)
        except ConnectionError:
            out.close()
            out = None
        time.sleep(chance.random() * 0.3)
    out.close()


main(*sys.argv[1:])
