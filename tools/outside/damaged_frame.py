#!/usr/bin/env python3
"""Turns each bit of a frame in turn, and counts what comes of it by the rules of docs/packets.md.

It is a second reading of those rules, and uses nothing of the library. The frame holds the nine digits "123456789" of
a block from its first byte on, with one CRC32C; byte 8 is due. Prints how many frames are accepted, and how many are
refused by each number; crates/frames/src/tests.rt holds the library to these counts.
"""
from collections import Counter

FRAME = bytes([0, 0, 0, 17, 0, 25, 9] + [0] * 8 + [17] + [0] * 8 + [24, 0, 37, 9, 0, 0, 0, 0xE3, 6, 0x92, 0x83]) + b'123456789'
KNOWN = {1: 1, 2: 1, 3: 0, 4: 5, 5: 0}  # the wire type of each field of a header
BYTES_PER_CHECKSUM = 512


class Refused(Exception):
    pass


def crc32c(data):
    register = 0xFFFFFFFF
    for byte in data:
        register ^= byte
        for _ in range(8):
            register = register >> 1 ^ (0x82F63B78 if register & 1 else 0)
    return register ^ 0xFFFFFFFF


def varint(message, at):
    value = 0
    for group in range(10):
        if at >= len(message):
            raise Refused(20)
        value |= (message[at] & 127) << 7 * group
        at += 1
        if message[at - 1] < 128:
            if value >= 2 ** 64:
                raise Refused(21)
            return value, at
    raise Refused(21)


def fields(message):
    at, seen = 0, {}
    while at < len(message):
        key, at = varint(message, at)
        number, kind = key // 8, key % 8
        if key >= 2 ** 32 or number == 0 or kind not in (0, 1, 2, 5):
            raise Refused(21)
        if kind == 0:
            value, at = varint(message, at)
        else:
            length, at = varint(message, at) if kind == 2 else (8 if kind == 1 else 4, at)
            if at + length > len(message):
                raise Refused(20)
            value, at = int.from_bytes(message[at:at + length], 'little'), at + length
        if KNOWN.get(number, kind) != kind:
            raise Refused(21)
        seen[number] = value
    return seen


def read(due, frame):
    if len(frame) < 6:
        raise Refused(20)
    payload, head = int.from_bytes(frame[:4], 'big'), int.from_bytes(frame[4:6], 'big')
    whole = 2 + max(payload, 4) + head
    if len(frame) != whole:
        raise Refused(20 if len(frame) < whole else 21)
    header = fields(frame[6:6 + head])
    if not {1, 2, 3, 4} <= header.keys():
        raise Refused(22)
    offset, length, rest = header[1], header[4], frame[6 + head:]
    if payload < 4 or length >= 2 ** 31 or length > len(rest):
        raise Refused(23)
    sums, data = rest[:len(rest) - length], rest[len(rest) - length:]
    runs = [data[i:i + BYTES_PER_CHECKSUM] for i in range(0, length, BYTES_PER_CHECKSUM)]
    if 4 * len(runs) > len(sums):
        raise Refused(24)
    if any(int.from_bytes(sums[4 * i:4 * i + 4], 'big') != crc32c(run) for i, run in enumerate(runs)):
        raise Refused(25)
    if not (offset < 2 ** 63 and offset <= due < offset + length):
        raise Refused(26)


counts = Counter()
for at in range(len(FRAME)):
    for bit in range(8):
        frame = bytearray(FRAME)
        frame[at] ^= 1 << bit
        try:
            read(8, bytes(frame))
            counts['accepted'] += 1
        except Refused as refusal:
            counts[refusal.args[0]] += 1
for answer in sorted(counts, key=str):
    print(answer, counts[answer])
