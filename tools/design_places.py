#!/usr/bin/env python3
"""Counts, by text, the places in crates/*/src that docs/DESIGN-PASS.md speaks of, and lists them.

usage: design_places.py [FOLDER] [--list]    FOLDER has a crates/ (default: the current one)

A place with a comment line `// Stays: ..` in the six lines above it counts as kept. What is counted:

 1 hand-written answers: an arm or a let-else that hands out Err or None for Err or None; a function that turns a kind
   into a number or text by a match; a variant that holds a bare number; a flag or a count for an Option or a Result
 2 twins: functions of 12 tokens and more that are alike but for names, types and numbers
 3 loops over a range, and while and loop
 4 hand-written impls of From, Display, Clone, Copy and comparisons, and plain types without derived equality
 5 facts that stand in three requires or more, and parameters of three functions or more of which one never stands without the other
 6 arrays and slices beside a count of what is in them
 7 a parameter whose kind picks the step to run
 8 proof files: answers, and imports from inside the kit
"""
import pathlib, re, sys

args = [a for a in sys.argv[1:] if a != '--list']
TOP = pathlib.Path(args[0] if args else '.')
LIST = '--list' in sys.argv


def functions(text):
    """Each function: name, line, head (up to the body), body."""
    for m in re.finditer(r'^[ \t]*(?:pub(?:\(crate\))? )?(?:final )?fn (\w+)', text, re.M):
        depth, brackets, i = 0, 0, m.end()
        start = None
        # the body is the first block that no word of a clause stands before
        while i < len(text):
            c = text[i]
            brackets += (c in '([') - (c in ')]')
            if c == ';' and depth == 0 and brackets == 0:
                break
            if c == '{':
                if depth == 0 and brackets == 0:
                    before = text[m.start():i].rstrip()
                    clause = re.search(r'(requires|ensures)(\s+\w+)?$', before)
                    if not clause:
                        start = i
                depth += 1
            if c == '}':
                depth -= 1
                if depth == 0 and start is not None:
                    yield m.group(1), text.count('\n', 0, m.start()) + 1, text[m.start():start], text[start:i + 1], start
                    break
            i += 1


def line_of(text, at):
    return text.count('\n', 0, at) + 1


def sources():
    for f in sorted(TOP.glob('crates/*/src/**/*.rt')):
        yield f, f.read_text()


found = {n: [] for n in range(1, 9)}


def add(point, f, text, line, what):
    lines = text.split('\n')
    kept = any(l.strip().startswith('// Stays:') for l in lines[max(0, line - 7):line])
    found[point].append((str(f.relative_to(TOP)), line, what, kept))


def plain(body):
    body = re.sub(r'//.*', '', body)
    body = re.sub(r'b?"[^"]*"|b?\'.\'', 'T', body)
    return ['I' if re.match(r'\w', t) and t not in
            ('if', 'else', 'for', 'in', 'match', 'return', 'let', 'mut', 'while', 'loop', 'as') else t
            for t in re.findall(r'\w+|[^\s\w]', body)]


bodies, facts, params = {}, {}, {}
for f, text in sources():
    crate = f.parts[-3]
    test = f.name == 'tests.rt'
    for m in re.finditer(r'(None|Err\(\w+\)|_) => (return )?(Err\(|None\b)|else \{\s*return (Err\(|None\b|&\[\])|=> return (None|Err\()'
                         r'|(None|Err\(_\)) => (\w+\b|0)(?=[,\n])', text):
        add(1, f, text, line_of(text, m.start()), 'handed on by hand: ' + ' '.join(m.group(0).split()))
    for m in re.finditer(r'^\s+[A-Z]\w+\((u8|u16|u32|u64|usize|i32)\),', text, re.M):
        add(1, f, text, line_of(text, m.start(1)), 'a bare number in a variant: ' + m.group(0).strip())
    for m in re.finditer(r'let mut \w+ = (false|true);', text):
        add(1, f, text, line_of(text, m.start()), 'a flag: ' + m.group(0))
    for name, line, head, body, at in functions(text):
        inner = body.strip()[1:-1].strip()
        if re.match(r'match \*?self|match \w+ \{', inner) and re.search(r'-> (u8|&\'static str)', head) and name != 'value_of':
            add(4, f, text, line, 'a kind turned into a number or text: ' + name)
        if re.search(r'\(bool, |, bool\)', head.split('{')[0]):
            add(1, f, text, line, 'a flag beside a value: ' + name)
        if '-> u8' in head and re.search(r'Ok\(_\) => Ok\(0\)', body):
            add(1, f, text, line, 'a number for none: ' + name)
        if not test:
            toks = plain(body)
            if len(toks) >= 12:
                bodies.setdefault(' '.join(toks), []).append((f, text, line, name))
        for m in re.finditer(r'\bfor (?!_)(\w+) in [^{\n]*\.\.[^{\n]*\{|\bwhile [^{\n]*\{|(?:\'\w+: )?\bloop \{', body):
            if 'for ' not in m.group(0) or '..' in re.sub(r'\[[^\]]*\]', '', m.group(0)):
                add(3, f, text, line_of(text, at + m.start()), f'{name}: ' + m.group(0).rstrip(' {'))
        for m in re.finditer(r'requires(?: \w+)? \{ (.*?) \}(?=\n)', head):
            for fact in re.split(r' × ', m.group(1)):
                fact = re.sub(r'[()\s]+', ' ', re.sub(r'\.(now|old)', '', fact)).strip()
                facts.setdefault((crate, fact), []).append((f, text, line, name))
        sig = re.split(r'\n\s*(?:requires|ensures)', head)[0]
        names = sorted(set(re.findall(r'(\w+): ', sig)))
        params.setdefault(crate, []).append((f, text, line, name, set(names)))
        if re.search(r'&(mut )?\[', sig) and re.search(r'\b(n|count|len|found|rows|d): usize', sig):
            add(6, f, text, line, 'a buffer beside a count: ' + name)
        m = re.search(r'\b(source|kind): (Source|Checksum)', sig)
        if m:
            add(7, f, text, line, f'{name}: ' + m.group(0))
    for m in re.finditer(r'^impl(?:<[^>]*>)? (?:fmt::)?(From<[^>]*(?:<\w+>)?>|Display|Clone|Copy|PartialEq|Eq|PartialOrd|Ord|Debug) for', text, re.M):
        add(4, f, text, line_of(text, m.start()), 'impl ' + m.group(1))
    for m in re.finditer(r'#\[derive\(Clone, Copy\)\]\n(?:pub(?:\(crate\))? )?(struct|enum) (\w+)', text):
        add(4, f, text, line_of(text, m.start()), 'no derived equality: ' + m.group(2))
    for m in re.finditer(r'let mut \w+ = \[[^\]]*; ?\d+\];', text):
        if not test:
            add(6, f, text, line_of(text, m.start()), 'an array to be filled: ' + m.group(0))

for group in bodies.values():
    if len(group) > 1:
        for f, text, line, name in group:
            add(2, f, text, line, f'{name}, one of {len(group)} alike')
for (crate, fact), group in facts.items():
    if len({g[3] for g in group}) >= 3:
        f, text, line, name = group[0]
        add(5, f, text, line, f'in {len(group)} requires of {crate}: {fact}')
for crate, all_ in params.items():
    pairs, alone = {}, {}
    for f, text, line, name, names in all_:
        for a in names:
            alone[a] = alone.get(a, 0) + 1
        for a in names:
            for b in names:
                if a < b:
                    pairs.setdefault((a, b), []).append((f, text, line, name))
    for (a, b), group in sorted(pairs.items()):
        if len(group) >= 3 and len(group) == min(alone[a], alone[b]) and not {a, b} & {'rt', 'self', 'f', 'F', 'C'}:
            f, text, line, name = group[0]
            add(5, f, text, line, f'{a} and {b} together in {len(group)} functions of {crate}')
for f in sorted(TOP.glob('crates/*/proofs/**/*.antt')):
    text = f.read_text()
    if f.relative_to(TOP).parts[1] in ('algebra', 'gfmath', 'crcmath', 'dealing'):
        continue  # mathematics: no code, so no place of the other points
    for m in re.finditer(r'^use (mathlib|native|lib|borrow|denote|Prim)\b.*', text, re.M):
        add(8, f, text, line_of(text, m.start()), 'inside the kit: ' + m.group(0))
    if f.name == 'Answers.antt':
        for m in re.finditer(r'^pub (\S+) : goal\.', text, re.M):
            add(8, f, text, line_of(text, m.start()), 'answer: ' + m.group(1))

total = lambda n, kept: sum(1 for p in found[n] if p[3] == kept)
for n in range(1, 9):
    print(f'point {n}: {len(found[n])} places, {total(n, True)} of them kept with a reason')
    if LIST:
        for file, line, what, kept in found[n]:
            print(f'    {file}:{line}: {what}' + (' (kept)' if kept else ''))
