"""make_block.py LENGTH > FILE

A block that looks like a plate-thickness scan: big-endian 16-bit numbers, micrometres, walked row
by row over a grid 25 points wide. A plate of 3,600 that thins to one side, rolled waves, three
pits and a few micrometres of noise; all whole numbers, the same on every run. An odd LENGTH cuts
the last number in half.
"""
import sys

WIDE = 25
PITS = [(6, 5, 900, 18), (17, 12, 650, 9), (21, 3, 400, 25)]  # column, row, depth, narrowness


def thickness(x, y, noise):
    wave = abs((7 * x + 3 * y) % 40 - 20) * 6
    loss = sum(max(0, deep - narrow * ((x - a) ** 2 + (y % 40 - b) ** 2)) for a, b, deep, narrow in PITS)
    return min(4500, max(2500, 3600 + 24 * (12 - x) + wave - loss + noise))


def block(length):
    state = 1
    out = bytearray()
    at = 0
    while len(out) < length:
        state = (state * 1103515245 + 12345) % 2**31
        out += thickness(at % WIDE, at // WIDE, (state >> 16) % 25 - 12).to_bytes(2, "big")
        at += 1
    return bytes(out[:length])


if __name__ == "__main__":
    sys.stdout.buffer.write(block(int(sys.argv[1])))
