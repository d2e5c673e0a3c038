"""The rules of the codes, schemes and policies as a small model, written to be compared with.

  model.py answer < QUESTIONS            one answer a line: `ok WORD...`, `refuse N` or `none`
  model.py parity FILE...                checks lines `encode D P CELL... => PARITY...` and
                                         `xor D CELL... => PARITY`
  model.py recover FOLDER CODEC D P S LENGTH > BLOCK
                                         puts a block together again from FOLDER/shard-N
  model.py account FOLDER CODEC D P S BLOCK MISSING...
                                         what a reader of the block's shards should find, if the
                                         shards MISSING are not there (FOLDER has them all)

Questions are described at the head of crates/replay/data/crate-answers.txt. `none`: the rules do not know such a
question (cells of unlike length, a row that is not there).
"""
import hashlib
import os
import sys
import zlib

MODULUS = 0x11D
POLICIES = {
    1: ("rs", 6, 3),
    2: ("rs", 3, 2),
    3: ("rs-legacy", 6, 3),
    4: ("xor", 2, 1),
    5: ("rs", 10, 4),
}
CODECS = ("rs", "rs-legacy", "xor")
LARGEST_CELL = 1048576


class Refusal(Exception):
    """A refusal by number; 0 stands for a question that the rules do not know."""


# The field of 256 elements


def times(a, b):
    """Carry-less product reduced by the modulus."""
    r = 0
    while b:
        if b & 1:
            r ^= a
        a <<= 1
        if a & 0x100:
            a ^= MODULUS
        b >>= 1
    return r


INVERSE = [0] * 256
for _a in range(1, 256):
    INVERSE[_a] = next(b for b in range(1, 256) if times(_a, b) == 1)
PRODUCT = [bytes(times(a, b) for b in range(256)) for a in range(256)]


# Matrices and cells


def matrix(codec, d, p):
    """d rows of the identity, then the parity rows."""
    top = [[int(r == c) for c in range(d)] for r in range(d)]
    if codec == "xor":
        return top + [[1] * d]
    return top + [[INVERSE[(r ^ c) & 255] for c in range(d)] for r in range(d, d + p)]


def invert(rows):
    """Gauss and Jordan; the search for a pivot stops at the first usable row."""
    n = len(rows)
    if n == 0 or n > 16 or any(len(r) != n for r in rows):
        raise Refusal(10)
    return eliminate(rows)


def eliminate(rows):
    n = len(rows)
    work = [list(r) + [int(i == j) for j in range(n)] for i, r in enumerate(rows)]
    for k in range(n):
        pivot = next((r for r in range(k, n) if work[r][k]), None)
        if pivot is None:
            raise Refusal(11)
        work[k], work[pivot] = work[pivot], work[k]
        scale = PRODUCT[INVERSE[work[k][k]]]
        work[k] = [scale[x] for x in work[k]]
        for r in range(n):
            if r != k and work[r][k]:
                by = PRODUCT[work[r][k]]
                work[r] = [x ^ by[y] for x, y in zip(work[r], work[k])]
    return [r[n:] for r in work]


def act(row, cells):
    """The sum of the cells, each acted on by its element of the row."""
    out = bytes(len(cells[0]))
    for a, cell in zip(row, cells):
        out = bytes(x ^ y for x, y in zip(out, cell.translate(PRODUCT[a])))
    return out


def parity(codec, d, p, cells):
    return [act(row, cells) for row in matrix(codec, d, p)[d:]]


def recover(codec, d, p, cells):
    """The d data cells of a row from its d + p cells, None for a missing one."""
    there = [i for i, c in enumerate(cells) if c is not None]
    if len(there) < d:
        raise Refusal(7)
    if all(c is not None for c in cells[:d]):
        return cells[:d]
    if codec == "rs-legacy":
        raise Refusal(8)
    lowest = there[:d]
    whole = matrix(codec, d, p)
    back = invert([whole[i] for i in lowest])
    known = [cells[i] for i in lowest]
    return [c if c is not None else act(back[i], known) for i, c in enumerate(cells[:d])]


# Schemes


def check(codec, d, p, s):
    if codec not in CODECS:
        raise Refusal(1)
    if d < 1 or p < 1 or d + p > 16 or not 1 <= s <= LARGEST_CELL or (codec == "xor" and p != 1):
        raise Refusal(2)


def policy(number, schema=None):
    if schema is None:
        if number not in POLICIES:
            raise Refusal(1)
        schema = (*POLICIES[number], LARGEST_CELL)
    check(*schema)
    return schema


def shard_length(d, s, index, length):
    """The own bytes of a shard; parity is as long as shard 0."""
    if index >= d:
        index = 0
    whole, rest = divmod(length, d * s)
    return whole * s + min(s, max(0, rest - index * s))


# Questions


def unhex(word):
    return None if word == "-" else bytes.fromhex(word)


def answer(question):
    word = question.split()
    number = [int(w) if w.isdigit() else None for w in word]
    try:
        if word[0] == "encode":
            d, p = number[1:3]
            cells = [unhex(w) for w in word[3:]]
            check("rs", d, p, 1)
            if len(cells) != d or None in cells or len({len(c) for c in cells}) != 1:
                raise Refusal(0)
            out = [c.hex() for c in parity("rs", d, p, cells)]
        elif word[0] == "decode":
            codec, (d, p, s) = word[1], number[2:5]
            shards = [unhex(w) for w in word[5:]]
            check(codec, d, p, s)
            there = {len(c) for c in shards if c is not None}
            if len(shards) != d + p or len(there) > 1 or any(n % s for n in there):
                raise Refusal(0)
            out = []
            for row in range(max(there) // s if there else 1):
                cells = [c and c[row * s : row * s + s] for c in shards]
                out += [c.hex() for c in recover(codec, d, p, cells)]
        elif word[0] == "matrix":
            d, p = number[1:3]
            check("rs", d, p, 1)
            out = [bytes(r).hex() for r in matrix("rs", d, p)]
        elif word[0] == "inverse":
            d, p, *chosen = number[1:]
            check("rs", d, p, 1)
            if any(r >= d + p for r in chosen) or chosen != sorted(chosen):
                raise Refusal(0)
            whole = matrix("rs", d, p)
            out = [bytes(r).hex() for r in invert([whole[r] for r in chosen])]
        elif word[0] == "shards":
            d, p, s, length = number[1:]
            check("rs", d, p, s)
            out = [str(shard_length(d, s, i, length)) for i in range(d + p)]
        elif word[0] == "policy":
            schema = (word[2], *number[3:6]) if len(word) > 2 else None
            out = [str(x) for x in policy(number[1], schema)]
        else:
            raise ValueError("unknown question: " + question)
    except Refusal as why:
        n = why.args[0]
        return f"refuse {n}" if n else "none"
    return " ".join(["ok", *out])


def check_parity(names):
    good = bad = 0
    for name in names:
        for line in open(name):
            if line.startswith("#") or not line.strip():
                continue
            left, right = (part.split() for part in line.split("=>"))
            codec, d = ("xor" if left[0] == "xor" else "rs"), int(left[1])
            p = 1 if codec == "xor" else int(left[2])
            cells = [bytes.fromhex(w) for w in left[2 if codec == "xor" else 3 :]]
            if len(cells) == d and [c.hex() for c in parity(codec, d, p, cells)] == right:
                good += 1
            else:
                bad += 1
                print("differs: " + line, end="")
    print(f"{good} agree, {bad} differ")
    return bad == 0


def recover_block(folder, codec, d, p, s, length):
    check(codec, d, p, s)
    column = []
    for i in range(d + p):
        name = os.path.join(folder, f"shard-{i}")
        bytes_there = open(name, "rb").read() if os.path.exists(name) else None
        own = shard_length(d, s, i, length)
        if own == 0:
            bytes_there = b""
        assert bytes_there is None or len(bytes_there) == own, name
        column.append(bytes_there)
    out = b""
    for row in range(-(-length // (d * s))):
        # A cut parity cell too is filled with zeros: past shard 0's own bytes the row has none
        cells = [c if c is None else c[row * s : row * s + s].ljust(s, b"\0") for c in column]
        out += b"".join(recover(codec, d, p, cells))
    return out[:length]


def account(folder, codec, d, p, s, name, missing):
    block = open(name, "rb").read()
    length = len(block)
    print(f"codec {codec}\ndata {d}\nparity {p}\ncell {s}")
    print(f"length {length}\ncrc32 {zlib.crc32(block):08x}\nsha256 {hashlib.sha256(block).hexdigest()}")
    print("missing " + " ".join(map(str, missing)))
    print("# shard NUMBER LENGTH CRC32 there|missing")
    for i in range(d + p):
        own = open(os.path.join(folder, f"shard-{i}"), "rb").read()
        assert len(own) == shard_length(d, s, i, length)
        print(f"shard {i} {len(own)} {zlib.crc32(own):08x} {'missing' if i in missing else 'there'}")
    print("# row NUMBER BYTES own LENGTH*(D+P) recovered SHARD... from SHARD*D")
    for row in range(-(-length // (d * s))):
        own = [min(s, max(0, shard_length(d, s, i, length) - row * s)) for i in range(d + p)]
        there = [i for i in range(d + p) if i not in missing or own[i] == 0]
        lost = [i for i in range(d) if i not in there]
        used = there[:d] if lost else range(d)
        print(
            f"row {row} {min(d * s, length - row * d * s)} own {' '.join(map(str, own))}"
            f" recovered {' '.join(map(str, lost)) or '-'} from {' '.join(map(str, used))}"
        )


if __name__ == "__main__":
    if sys.argv[1:2] == ["answer"]:
        for line in sys.stdin:
            if line.strip() and not line.startswith("#"):
                print(answer(line))
    elif sys.argv[1:2] == ["parity"]:
        sys.exit(not check_parity(sys.argv[2:]))
    elif sys.argv[1:2] == ["recover"]:
        folder, codec, *rest = sys.argv[2:]
        sys.stdout.buffer.write(recover_block(folder, codec, *map(int, rest)))
    elif sys.argv[1:2] == ["account"]:
        folder, codec, d, p, s, name, *missing = sys.argv[2:]
        account(folder, codec, int(d), int(p), int(s), name, [int(i) for i in missing])
    else:
        sys.exit(__doc__)
