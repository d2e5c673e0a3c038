#!/usr/bin/env python3
"""Spells the repository's own definitions, lemmas, fields and constructors of specs/ and proofs/ in snake case.

Run once at the top, after the kit's port.py. Names of src/, generated labels, names of the library, comments in
prose and strings stay. Prints names that would fall together with another, and then changes nothing.
"""
import collections
import glob
import re
import sys

TOKEN = re.compile(r"[^\s(){}\[\];,.|\"«»]+")
USE = re.compile(r"\buse\s+(Rattle\.[\w.]+|[A-Za-z][\w.]*)\.\{([^}]*)\}")
SIGNATURE = re.compile(r"^\s*(?:(?:pub|abbrev|unfoldable)\s+)*([^\s(){}:]+(?:\s+[^\s(){}:]+)*?)\s+:\s")


# Names that would fall together with another in snake case, and what each is called instead.
OTHERWISE = {
    "cell-is": "cell_is_filled",  # a field is cell_is
    "cell-of": "cell_of_byte_of",  # a definition is cell_of
    "cellLen": "cell_len_of",  # functions of src/ are cell_len, data_len, like_shard, own_len and varint_at
    "dataLen": "data_len_of",
    "likeShard": "like_shard_of",
    "ownLen": "own_len_of",
    "varintAt": "varint_from",
    "varint-of": "varint_of_groups",  # a definition is varint_of
}

# Fields of different records, and a lemma beside a function of src/: each has its own scope.
APART = {"cellSize", "dataUnits", "parityUnits", "some-data", "some-parity", "count-there"}


def snake(name):
    if name in OTHERWISE:
        return OTHERWISE[name]
    name = name.replace("-", "_")
    name = re.sub(r"(?<=[a-z0-9])([A-Z])", lambda m: "_" + m.group(1).lower(), name)
    return name


def is_old(name):
    if name[0].isupper() or not re.match(r"[a-z]", name):
        return False
    return "-" in name or re.search(r"[a-z0-9][A-Z]", name) is not None


def split_comment(line, mark):
    at = line.find(mark)
    return (line, "") if at < 0 else (line[:at], line[at:])


def antt_files():
    return sorted(glob.glob("crates/*/specs/**/*.antt", recursive=True) + glob.glob("crates/*/proofs/**/*.antt", recursive=True))


def rattle_files():
    return sorted(glob.glob("crates/*/src/**/*.rt", recursive=True))


def read(path):
    with open(path, encoding="utf-8") as f:
        return f.read()


def own_crates():
    return {p.split("/")[1] for p in glob.glob("crates/*/src")}


def foreign_imports(text, crates):
    """The names that a file takes from the library or from generated modules."""
    taken = set()
    for path, names in USE.findall(text):
        parts = path.split(".")
        own = len(parts) > 2 and parts[0] == "Rattle" and parts[1] in crates
        generated = own and ("declared" in parts or parts[-1] in ("Goals", "Given"))
        if own and not generated:
            continue
        for name in names.split(","):
            words = name.split()
            if words:
                taken.add(words[-1])
                taken.add(words[0])
    return taken


def labels(texts):
    """Names of goals, which the check makes."""
    return {m for t in texts.values() for m in re.findall(r"\b(?:goal|need|goals)\.([^\s(){}\[\];,.]+)", t)}


def collect(texts):
    made = labels(texts)
    found = set()
    for text in texts.values():
        for line in text.splitlines():
            code, _ = split_comment(line, "--")
            m = SIGNATURE.match(code)
            if not m:
                continue
            for name in m.group(1).split():
                if is_old(name) and name not in made:
                    found.add(name)
    return {n: snake(n) for n in found}


def turn_code(code, table, kept):
    return TOKEN.sub(lambda m: table[m.group(0)] if m.group(0) in table and m.group(0) not in kept else m.group(0), code)


def turn_comment(comment, table):
    camel = {n: s for n, s in table.items() if "-" not in n}
    return re.sub(r"[A-Za-z][\w']*", lambda m: camel.get(m.group(0), m.group(0)), comment)


def turn_antt(text, table, kept):
    lines = []
    for line in text.split("\n"):
        code, comment = split_comment(line, "--")
        lines.append(turn_code(code, table, kept) + turn_comment(comment, table))
    return "\n".join(lines)


def turn_rattle(text, table, kept):
    """Only `ghost use` lines, clauses and ghost members."""
    lines = []
    ghost = 0
    for line in text.split("\n"):
        code, comment = split_comment(line, "//")
        stripped = code.strip()
        if ghost == 0 and re.match(r"(pub(\([a-z]+\))? )?(ghost|requires|ensures)\b", stripped):
            opened = code.count("{") - code.count("}")
            code = turn_code(code, table, kept)
            ghost = opened if opened > 0 else 0
        elif ghost > 0:
            opened = code.count("{") - code.count("}")
            code = turn_code(code, table, kept)
            ghost += opened
        lines.append(code + turn_comment(comment, table))
    return "\n".join(lines)


def tokens(text, mark):
    return {t for line in text.splitlines() for t in TOKEN.findall(split_comment(line, mark)[0])}


def main():
    crates = own_crates()
    antt = {p: read(p) for p in antt_files()}
    rattle = {p: read(p) for p in rattle_files()}
    table = collect(antt)
    clashes = []
    back = collections.defaultdict(set)
    for old, new in table.items():
        back[new].add(old)
    clashes += [f"{sorted(olds)} fall together" for new, olds in back.items() if len(olds) > 1]
    for path, text in {**antt, **rattle}.items():
        present = tokens(text, "--" if path.endswith(".antt") else "//")
        kept = foreign_imports(text, crates)
        for old, new in sorted(table.items()):
            if old in present and old not in kept and new in present and old not in APART:
                clashes.append(f"{path}: {old} and {new}")
            if old in present and old in kept:
                print(f"note: {path}: {old} is another's here")
    if clashes:
        print("\n".join(clashes))
        return 1
    for path, text in antt.items():
        new = turn_antt(text, table, foreign_imports(text, crates))
        if new != text:
            open(path, "w", encoding="utf-8").write(new)
    for path, text in rattle.items():
        new = turn_rattle(text, table, foreign_imports(text, crates))
        if new != text:
            open(path, "w", encoding="utf-8").write(new)
    print(f"{len(table)} names")
    return 0


if __name__ == "__main__":
    sys.exit(main())
