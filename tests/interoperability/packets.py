#!/usr/bin/env python3
"""Writes a capture of made-up traffic (pcap, Ethernet) to standard output: always the same octets.

Ten minutes from 1700000000 on: TCP connections, UDP both ways and ICMP of six IPv4 hosts, and UDP over IPv6."""
import random
import struct
import sys

START = 1700000000
random = random.Random(1)
packets = []


def ip4(source, target, protocol, body):
    header = struct.pack('>BBHHHBBH4s4s', 0x45, 0, 20 + len(body), 1, 0, 64, protocol, 0, source, target)
    return b'\x08\x00' + header + body


def ip6(source, target, protocol, body):
    return b'\x86\xdd' + struct.pack('>IHBB16s16s', 6 << 28, len(body), protocol, 64, source, target) + body


def tcp(ports, flags, size=0):
    return struct.pack('>HHIIBBHHH', *ports, 1, 1, 0x50, flags, 8192, 0, 0) + bytes(size)


def udp(ports, size):
    return struct.pack('>HHHH', *ports, 8 + size, 0) + bytes(size)


def add(seconds, frame):
    packets.append((START * 1000000 + round(seconds * 1000000), b'\x02\0\0\0\0\2\x02\0\0\0\0\1' + frame))


def conversation(ip, one, other, kind, begin):
    ports, time = (random.randint(20000, 60000), random.choice((53, 80, 443))), begin
    there = lambda body, number: add(time, ip(one, other, number, body))
    back = lambda body, number: add(time, ip(other, one, number, body))
    if kind == 'icmp':
        for reply, send in ((8, there), (0, back)):
            send(struct.pack('>BBHHH', reply, 0, 0, 7, 1) + bytes(48), 1)
            time += 0.012
        return
    if kind == 'tcp':
        for flags, send, way in ((2, there, ports), (0x12, back, ports[::-1]), (0x10, there, ports)):
            send(tcp(way, flags), 6)
            time += 0.003
    for _ in range(random.randint(1, 60)):
        time += random.random() * 2
        way, send, most = random.choice(((ports, there, 200), (ports[::-1], back, 1400)))
        size = random.randint(1, most)
        send(tcp(way, 0x18, size) if kind == 'tcp' else udp(way, size), 6 if kind == 'tcp' else 17)
    if kind == 'tcp':
        for flags, send, way in ((0x11, there, ports), (0x11, back, ports[::-1]), (0x10, there, ports)):
            time += 0.002
            send(tcp(way, flags), 6)


hosts = [bytes((192, 0, 2, last)) for last in (1, 2, 3)] + [bytes((198, 51, 100, last)) for last in (7, 8, 9)]
hosts6 = [bytes.fromhex('20010db8') + bytes(11) + bytes((last,)) for last in (1, 2)]
for _ in range(160):
    one, other = random.sample(hosts, 2)
    conversation(ip4, one, other, random.choice(('tcp', 'tcp', 'udp', 'icmp')), random.random() * 540)
for _ in range(10):
    conversation(ip6, *hosts6, 'udp', random.random() * 540)

write = sys.stdout.buffer.write
write(struct.pack('>IHHIIII', 0xa1b2c3d4, 2, 4, 0, 0, 65535, 1))
for time, frame in sorted(packets):
    write(struct.pack('>IIII', time // 1000000, time % 1000000, len(frame), len(frame)) + frame)
