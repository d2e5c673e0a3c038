"""ask.py RELEASE CHECKED COUNT ANSWERS [ALL]

Asks the crate COUNT drawn questions, after a fixed list of limits and oddities, through its two
builds (the programs RELEASE and CHECKED), holds the answers against model.py, names every
difference, and writes a sample to the file ANSWERS and all of it to ALL. Fails if an answer is not
the one foretold.

`crate` below is a model of the crate, faults included. It foretells every answer, so a difference
is explained by a line of that function and not only by a name.
"""
import resource
import subprocess
import sys

import model
from model import Refusal

# Drawing: a linear congruence, the same on every run


class Draw:
    def __init__(self, seed):
        self.state = seed

    def below(self, n):
        self.state = (self.state * 6364136223846793005 + 1442695040888963407) % 2**64
        return (self.state >> 32) % n

    def pick(self, items):
        return items[self.below(len(items))]

    def some(self, items, n):
        items = list(items)
        out = [items.pop(self.below(len(items))) for _ in range(n)]
        return sorted(out)

    def bytes(self, n):
        return bytes(self.below(256) for _ in range(n))

    def units(self):
        d = 1 + self.below(15)
        return d, 1 + self.below(16 - d)


def hexes(cells):
    return " ".join("-" if c is None else c.hex() for c in cells)


def without(cells, missing):
    return [None if i in missing else c for i, c in enumerate(cells)]


def rows_of(draw, codec, d, p):
    """A cell size and d + p whole shards of one to three rows."""
    s = draw.pick([1, 1, 1, 2, 3, 4, 7])
    length = s * (1 + draw.below(3))
    data = [draw.bytes(length) for _ in range(d)]
    return s, data + model.parity(codec, d, p, data)


def drawn(draw, n):
    """The n-th drawn question; kinds come in turn."""
    kind = n % 10
    if kind == 0:
        d, p = draw.units()
        length = 1 + draw.below(6)
        return f"encode {d} {p} {hexes(draw.bytes(length) for _ in range(d))}"
    if kind in (1, 2, 3):
        d, p = draw.units()
        s, shards = rows_of(draw, "rs", d, p)
        # Enough, just enough or too few
        lost = [draw.below(p + 1), p, p + 1 + draw.below(d)][draw.below(3)]
        return f"decode rs {d} {p} {s} {hexes(without(shards, draw.some(range(d + p), lost)))}"
    if kind == 4:
        d = 1 + draw.below(15)
        s, shards = rows_of(draw, "xor", d, 1)
        lost = draw.pick([0, 1, 1, 1, 2])
        return f"decode xor {d} 1 {s} {hexes(without(shards, draw.some(range(d + 1), lost)))}"
    if kind == 5:
        d, p = draw.units()
        s, shards = rows_of(draw, "rs", d, p)
        # Parity cells only, any, or too few
        how = draw.below(4)
        lost = draw.below(p + 1) if how < 3 else p + 1
        among = range(d, d + p) if how < 2 else range(d + p)
        return f"decode rs-legacy {d} {p} {s} {hexes(without(shards, draw.some(among, lost)))}"
    if kind in (6, 7):
        d, p = draw.units()
        return f"inverse {d} {p} {' '.join(map(str, draw.some(range(d + p), d)))}"
    if kind == 8:
        d, p = draw.units()
        s = draw.pick([1, 2, 3, 4, 64, 512, 1000, 65536, 1048575, 1048576])
        row = d * s
        length = draw.pick(
            [
                draw.below(4 * row + 1),
                draw.below(5) * row + draw.below(d + 1) * s + draw.pick([-1, 0, 1]),
                draw.below(2**32) * 256 + draw.below(256),
                2**40,
            ]
        )
        return f"shards {d} {p} {s} {max(0, length)}"
    number = draw.pick([0, 1, 2, 3, 4, 5, 6, 7, 100, 254, 255])
    if draw.below(6) == 0:
        return f"policy {number}"
    codec = draw.pick(["rs", "rs", "rs-legacy", "xor", "xor", "RS", "rs6-3", "reed-solomon", "lrc"])
    d, p = draw.units()
    s = draw.pick([1, 4, 64, 65536, 1048576])
    if codec == "xor" and draw.below(3):
        p = 1
    oddity = draw.below(12)
    if oddity == 0:
        d = 0
    if oddity == 1:
        p = 0
    if oddity == 2:
        p = 17 - d + draw.below(30)
    if oddity == 3:
        s = draw.pick([0, 1048577, 4294967295])
    return f"policy {number} {codec} {d} {p} {s}"


# The fixed list


def fixed():
    yield "encode 3 2 01 02 03"
    yield "encode 1 1 41"
    yield "encode 1 15 41"
    yield "encode 15 1 " + " ".join(f"{i + 1:02x}" for i in range(15))
    yield "encode 10 4 " + " ".join(f"{16 * i + 1:02x}{255 - i:02x}" for i in range(10))
    yield "encode 6 3 " + " ".join(f"{i + 1:02x}0000ff" for i in range(6))
    yield "encode 8 8 " + " ".join(f"{255 - i:02x}" for i in range(8))
    for d, p in [(1, 1), (2, 1), (3, 2), (6, 3), (10, 4), (15, 1), (1, 15), (8, 8)]:
        yield f"matrix {d} {p}"
    for d, p in [(1, 1), (3, 2), (6, 3), (10, 4), (8, 8), (15, 1), (1, 15)]:
        yield f"inverse {d} {p} {' '.join(map(str, range(d)))}"
        yield f"inverse {d} {p} {' '.join(map(str, range(p, d + p)))}"
    # Missing cells: none, parity, data, all that can be, one too many
    yield "decode rs 3 2 1 01 02 03 f6 9a"
    yield "decode rs 3 2 1 01 02 03 - -"
    yield "decode rs 3 2 1 - 02 03 f6 9a"
    yield "decode rs 3 2 1 - - 03 f6 9a"
    yield "decode rs 3 2 1 01 - - f6 9a"
    yield "decode rs 3 2 1 - - - f6 9a"
    yield "decode rs 3 2 1 - - - - -"
    yield "decode rs 1 1 1 - 41"
    yield "decode rs 1 1 1 41 -"
    yield "decode rs 1 1 1 - -"
    yield "decode rs 2 1 1 41 - -"
    yield "decode rs 2 1 2 41424344 - cccdcecf"
    yield "decode rs-legacy 1 1 1 41 -"
    yield "decode rs-legacy 1 1 1 - 41"
    yield "decode rs-legacy 1 1 1 - -"
    yield "decode rs-legacy 3 2 1 01 02 03 - -"
    yield "decode rs-legacy 3 2 1 01 02 - f6 9a"
    yield "decode rs-legacy 3 2 1 01 - - - 9a"
    yield "decode xor 1 1 1 41 -"
    yield "decode xor 1 1 1 - 41"
    yield "decode xor 1 1 1 - -"
    yield "decode xor 2 1 1 - 42 03"
    yield "decode xor 2 1 1 41 - 03"
    yield "decode xor 2 1 1 41 42 -"
    yield "decode xor 2 1 1 - - 03"
    for line in ["3 2 4 30", "3 2 4 0", "3 2 4 1", "3 2 4 4", "3 2 4 5", "3 2 4 12", "3 2 4 13", "1 1 1 0",
                 "1 1 1 1", "15 1 1 16", "1 15 1 2", "6 3 64 1000", "6 3 1048576 1099511627776",
                 "6 3 1048576 134217728", "10 4 1048576 134217728", "2 1 1048576 1048577"]:
        yield "shards " + line
    for number in [0, 1, 2, 3, 4, 5, 6, 7, 255]:
        yield f"policy {number}"
    # A schema wins over the id
    for line in ["0 rs 3 2 4", "255 xor 2 1 1", "1 rs 3 2 1048576", "4 rs 10 4 65536", "2 rs-legacy 6 3 1",
                 "1 rs 1 1 1", "1 rs 15 1 1", "1 rs 1 15 1", "1 xor 15 1 1"]:
        yield "policy " + line
    # Limits broken
    for line in ["1 rs 0 1 1", "1 rs 1 0 1", "1 rs 0 0 0", "1 rs 16 1 1", "1 rs 1 16 1", "1 rs 9 8 1",
                 "1 rs 20 20 1", "1 rs 1 1 0", "1 rs 1 1 1048577", "1 rs-legacy 16 1 1", "1 xor 1 2 1",
                 "1 xor 2 2 1", "4 xor 2 0 1", "1 rs 4294967295 1 1", "1 foo 1 1 1", "1 foo 0 0 0",
                 "1 RS 3 2 4", "1 rs-6-3 6 3 4"]:
        yield "policy " + line
    yield "matrix 16 1"
    yield "matrix 1 16"
    yield "matrix 1 0"
    yield "matrix 0 1"
    yield "matrix 1 256"
    yield "encode 1 0 41"
    yield "encode 0 1"
    yield "encode 1 16 41"
    yield "inverse 1 16 16"
    yield "inverse 1 256 255"
    yield "inverse 1 256 256"
    yield "shards 0 1 1 1"
    yield "shards 1 0 1 1"
    yield "shards 1 1 0 0"
    yield "shards 1 1 0 1"
    yield "shards 1 1 1048577 1"
    yield "shards 9 8 1 1"
    yield "decode rs 1 0 1 41"
    yield "decode rs 1 0 1 -"
    yield "decode rs 1 1 0 41 -"
    yield "decode rs 0 1 1 41"
    yield "decode rs 1 16 1 -" + " -" * 15 + " 41"
    yield "decode xor 1 2 1 41 - -"
    yield "decode foo 1 1 1 41 -"
    yield "decode foo 1 1 1 - 41"
    # Cells of unlike number or length, rows of unlike number
    yield "encode 2 1 41"
    yield "encode 2 1 41 4243"
    yield "decode rs 2 1 1 41"
    yield "decode rs 2 1 1 41 4243 -"
    yield "decode rs 2 1 1 4142 43 -"
    yield "decode rs 2 1 2 41 42 -"
    yield "decode rs 2 1 1 - 41 4243"
    yield "decode rs 2 1 1 - 41 - 42"
    yield "inverse 2 1 0"
    yield "inverse 2 1 0 0"
    yield "inverse 2 1 0 1 2"
    yield "inverse 2 1 0 3"


# The crate, foretold


class Panic(Exception):
    pass


class Hang(Exception):
    pass


def crate(question):
    word = question.split()
    number = [int(w) if w.isdigit() else None for w in word]
    try:
        if word[0] == "encode":
            d, p = number[1:3]
            cells = [model.unhex(w) for w in word[3:]]
            if d == 0 or p == 0 or len(cells) != d or len({len(c) for c in cells}) != 1:
                raise Panic
            out = [c.hex() for c in model.parity("rs", d, p, cells)]
        elif word[0] == "decode":
            out = crate_decode(word[1], *number[2:5], [model.unhex(w) for w in word[5:]])
            if isinstance(out, str):
                return out
        elif word[0] == "matrix":
            d, p = number[1:3]
            if d == 0:
                raise Panic
            out = [bytes(r).hex() for r in model.matrix("rs", d, p)]
        elif word[0] == "inverse":
            d, p, *chosen = number[1:]
            out = [bytes(r).hex() for r in crate_invert(d, p, chosen)]
        elif word[0] == "shards":
            d, p, s, length = number[1:]
            if d * s == 0 and d + p:
                raise Panic
            out = [str(model.shard_length(d, s, i, length)) for i in range(d + p)]
        else:
            # A schema is taken as it comes
            if len(word) == 2 and number[1] not in model.POLICIES:
                return "error codec"
            out = word[2:] or [*map(str, model.POLICIES[number[1]]), "1048576"]
    except Panic:
        return "panic"
    except Hang:
        return "hang"
    return " ".join(["ok", *out])


def crate_invert(d, p, chosen):
    """Rows are a set and in rising order; those that are not there are passed over."""
    rows = sorted({r for r in chosen if r < d + p})
    if d == 0 or len(rows) != d:
        raise Panic
    whole = model.matrix("rs", d, p)
    try:
        return model.eliminate([whole[r] for r in rows])
    except Refusal:
        raise Panic


def crate_decode(codec, d, p, s, shards):
    missing = [i for i, c in enumerate(shards[:d]) if c is None]
    if missing and codec != "rs":
        return "error codec"
    if missing:
        there = [i for i, c in enumerate(shards) if c is not None]
        if len(there) < d:
            return "error erasure"
        back = crate_invert(d, p, there[:d])
        known = [shards[i] for i in there[:d]]
        if len({len(c) for c in known}) != 1:
            raise Panic
        for i in missing:
            shards[i] = model.act(back[i], known)
    if not shards:
        raise Panic
    if shards[0] is None:
        return "ok"
    if d == 0 or s == 0:
        raise Hang
    out = []
    for at in range(0, len(shards[0]), s):
        for c in shards[:d]:
            if at + s > len(c):
                raise Panic
            out.append(c[at : at + s].hex())
    return out


# Differences


def same(question, rule, answer):
    """The crate's errors have no number; these stand for each other."""
    kind = question.split()[0]
    return rule == answer or (kind, rule, answer) in [
        ("decode", "refuse 7", "error erasure"),
        ("decode", "refuse 8", "error codec"),
        ("decode", "refuse 1", "error codec"),
        ("policy", "refuse 1", "error codec"),
    ]


def name(question, rule, answer):
    """Why the rule's answer is not the crate's; None if no reason is known."""
    word = question.split()
    if rule == "refuse 2":
        return "limits"
    if rule == "refuse 1":
        return "unknown-codec"
    if word[0] == "decode" and answer == "error codec" and rule.startswith("ok") and word[1] == "xor":
        return "xor-recovery"
    if word[0] == "decode" and answer == "error codec" and rule == "refuse 7":
        return "codec-before-count"
    if rule == "none":
        return "unlike-sizes"
    if word[0] == "inverse" and rule in ("refuse 10", "refuse 11") and answer == "panic":
        return "inverse-panics"
    return None


# Asking


def plain(line, question):
    """The program's answer line in the words of the sample."""
    word = line.replace(",", " ").split()
    assert word[0] == question.split()[0], (line, question)
    if word[1:] == ["panic"]:
        return "panic"
    if len(word) == 2 and word[1].startswith("error:"):
        return "error " + word[1][6:]
    return " ".join(["ok", *(w for w in word[1:] if w != "-")])


def ask(program, questions):
    """All questions in one run, but for those foretold to hang: these have a run of their own."""
    alone = [q for q in questions if crate(q) == "hang"]
    asked = [q for q in questions if crate(q) != "hang"]
    run = subprocess.run([program], input="\n".join(asked) + "\n", capture_output=True, text=True, check=True)
    lines = run.stdout.splitlines()
    assert len(lines) == len(asked)
    answers = {q: plain(a, q) for q, a in zip(asked, lines)}
    for q in alone:
        try:
            run = subprocess.run(
                [program],
                input=q + "\n",
                capture_output=True,
                text=True,
                timeout=2,
                preexec_fn=lambda: resource.setrlimit(resource.RLIMIT_AS, (2**30, 2**30)),
            )
            # Out of memory: 1 GiB was not enough for an answer
            answers[q] = plain(run.stdout, q) if run.returncode == 0 else "hang"
        except subprocess.TimeoutExpired:
            answers[q] = "hang"
    return answers


HEAD = """\
# Answers of the crate hdfs-native 0.13.5 about codes, schemes and policies, and where our rules
# differ. Written by ask.py (see README.md); a sample of the questions that were asked.
#
# The crate's own files for blocks, connections, codes and messages were built unchanged, byte for
# byte, beside stand-ins for what they lean on: the name node's protocol, the replacement of data
# nodes, user, GSSAPI and digest security are empty shells; the field macro (g2p) and the checksums
# (crc) are working replacements of ours; date, identifier, address, XML, name lookup, random
# number and cipher crates are shells that only compile. Calls asked: Coder::encode,
# EcSchema::ec_decode, Coder::gen_rs_matrix, Matrix::select_rows with invert, EcSchema::max_offset,
# resolve_ec_policy. Both builds (overflow checked, overflow wrapping) gave the answers below.
#
# A line:   QUESTION => ANSWER
#      or   QUESTION => ANSWER ## RULE (difference NAME)
# Words are parted by one space; => and ## are words. Numbers are decimal; bytes are lower-case hex,
# two digits a byte; - is a missing shard.
#
#   encode D P CELL*D               ANSWER words: P parity cells
#   decode CODEC D P S SHARD*(D+P)  the data cells of all rows, row by row, D a row, S bytes each;
#                                   a shard is one or more whole cells of S bytes
#   matrix D P                      D + P rows of the rs matrix, D bytes each
#   inverse D P ROW*D               D rows of the inverse of those rows of the rs matrix
#   shards D P S LENGTH             D + P shard lengths for a block of LENGTH bytes
#   policy ID                       CODEC D P S
#   policy ID CODEC D P S           the same, with a schema sent along
#
# ANSWER:  ok WORD...    the words named above
#          error KIND    the crate's error: erasure (too few shards) or codec (not supported)
#          panic         the crate panics
#          hang          no answer in two seconds, or memory of 1 GiB used up
# RULE:    ok WORD...    as above
#          refuse N      refusal by number (1 unknown policy or codec, 2 limits, 7 fewer than D
#                        cells, 8 rs-legacy with a data cell missing, 10 sides unlike, 11 singular)
#          none          the rules do not know such a question
# Without RULE both agree, where `error erasure` is refusal 7 and `error codec` is refusal 8 after
# decode rs-legacy and refusal 1 after policy and after decode with a codec that is not known.
#
# NAME:    xor-recovery        the crate does not recover xor; the rules do
#          codec-before-count  xor or rs-legacy with fewer than D cells: the crate names the codec
#          limits              the crate does not look at the limits of a scheme
#          unknown-codec       the crate takes any codec until a data cell is missing
#          unlike-sizes        cells of unlike length or number, a row that is not there
#          inverse-panics      not D rows, or a row twice: the crate panics
"""


def main(release, checked, count, out, every=None):
    draw = Draw(7)
    always = list(dict.fromkeys(fixed()))
    pairs = [f"matrix {d} {p}" for d in range(1, 16) for p in range(1, 17 - d)]
    questions = list(dict.fromkeys(always + pairs + [drawn(draw, n) for n in range(int(count))]))
    first, second = ask(release, questions), ask(checked, questions)
    tally, failed = {}, 0
    lines = {}
    for q in questions:
        kind = " ".join(q.split()[: 2 if q.startswith("decode") else 1])
        rule, answer = model.answer(q), first[q]
        why = None if same(q, rule, answer) else name(q, rule, answer) or "NOT NAMED"
        if answer != second[q] or answer != crate(q) or why == "NOT NAMED":
            failed += 1
            print(f"not foretold: {q[:200]}: {answer} / {second[q]} / {crate(q)} / {rule}")
        tally.setdefault(kind, {}).setdefault(why or "agree", []).append(q)
        lines[q] = f"{q} => {answer}" + (f" ## {rule} (difference {why})" if why else "")
    print(f"{len(questions)} questions, {len(always)} of them fixed, to each build; {failed} not foretold")
    for kind, by in sorted(tally.items()):
        print(f"  {kind}: " + ", ".join(f"{k} {len(v)}" for k, v in sorted(by.items())))
    total = {}
    for by in tally.values():
        for k, v in by.items():
            total[k] = total.get(k, 0) + len(v)
    print("  all: " + ", ".join(f"{k} {v}" for k, v in sorted(total.items())))

    # All of it, to be replayed once by hand
    if every:
        with open(every, "w") as file:
            file.write("\n".join(lines[q] for q in questions) + "\n")

    # The sample: the fixed list, then a few short drawn ones of each kind and outcome
    with open(out, "w") as file:
        file.write(HEAD)
        file.write("\n# The fixed list\n")
        for q in always:
            file.write(lines[q] + "\n")
        file.write("\n# Drawn\n")
        for kind, by in sorted(tally.items()):
            for why, qs in sorted(by.items()):
                fresh = [q for q in qs if q not in always and len(lines[q]) <= 400]
                for q in fresh[: 8 if why == "agree" else 3]:
                    file.write(lines[q] + "\n")
    return failed


if __name__ == "__main__":
    sys.exit(main(*sys.argv[1:]) != 0)
