#!/usr/bin/env python3
"""Lists the places in crates/*/src that docs/DESIGN-PASS.md counts, point by point.

    tools/design_places.py [ROOT] [--only POINT] [--count]

Each place is a pattern that an older form of the language leaves behind, so a place is where to look and not a
verdict: one that stays has its reason beside it, in a comment that begins with `Kept:`, and is listed as kept.
Point 8 counts the answers written by hand in crates/*/proofs.
"""
import difflib
import os
import re
import sys

PATTERNS = {
    1: [  # enums of the shape of Option or Result, a flag with a value beside it, numbers for kinds
        r'\bfn number\b.*-> u8', r'-> \(bool,', r'-> \(u8,', r'=> \(0, ', r'\bNone => (0|1)\b',
        r'Ok\(\(\)\) => Ok\(\(\)\)', r'if let Some\((\w+)\) = .* \{$', r'if let Err\((\w+)\) = .* \{$',
        r'Err\(\w+\) => Err\(', r'None => None', r'Err\(\w+\) => return Err',
    ],
    3: [r'\bwhile\b .*\{', r'\bloop\b \{', r'\bfor \w+ in .*\.\.', r'saturating_add\(1\);', r'\w+ \+= (1|got);'],
    4: [
        r'\bconst BLANK\b', r'\bfn less\b', r'^\s*(\w+): \w+\.\1,$', r'^\s*fn (put_\w+|\w+_line)\b', r'None => [01],',
        r'\bSome\(\w+\) => \w+,$', r'\bfn units\(cost: Option', r'\bfn show_refusal\b',
    ],
    6: [
        r'\[BLANK; \d+\]', r'\[0; \w+\]', r': \[\w+; (64|128)\]', r'-> \[\w+; (64|128)\]',
        r'\[0?\.\.\w*(count|length|len|filled)\w*\]',
        r'if \w+ (<|>=) [\w.]+\.len\(\)', r'[\w.]+\.len\(\) <= \w+ \{', r'\w+\[\w+(\.\w+)?( - 1| as usize)?\]',
    ],
    7: [r'&dyn\b', r': fn\(', r'match (step|kind|mode)\b'],
}
TITLES = {
    1: 'own Option or Result, a flag beside a value, numbers for kinds',
    2: 'twins',
    3: 'loops over an index or a count kept by hand',
    4: 'equality, copying, conversion, printing by hand',
    5: 'facts in three or more contracts, parameters that travel together',
    6: 'buffers with a length beside them, indexing after a test',
    7: 'a switch on a step, tables of functions',
    8: 'answers written by hand',
}


def sources(root):
    base = os.path.join(root, 'crates')
    for crate in sorted(os.listdir(base)):
        folder = os.path.join(base, crate, 'src')
        for top, _, files in sorted(os.walk(folder)):
            for name in sorted(files):
                if name.endswith('.rt'):
                    yield os.path.relpath(os.path.join(top, name), root)


def is_code(line):
    text = line.strip()
    return bool(text) and not text.startswith(('//', 'ghost ', 'ensures', 'requires', 'use '))


def kept(lines, i):
    """Whether the comment above a line, or above the function that it is in, gives a reason to keep the place."""
    for j in range(i, max(-1, i - 4), -1):
        if '// Kept:' in lines[j]:
            return True
    while i > 0 and not re.match(r'\s*(pub(\(\w+\))? )?(fn|const|struct|trait|impl)\b', lines[i]):
        i -= 1
    i -= 1
    while i >= 0 and lines[i].lstrip().startswith(('//', '#')):
        if '// Kept:' in lines[i]:
            return True
        i -= 1
    while i >= 0 and not re.match(r'(impl|trait)\b', lines[i]):
        if re.match(r'(pub(\(\w+\))? )?(fn|const|struct|enum)\b', lines[i]):
            return False
        i -= 1
    return i > 0 and '// Kept:' in lines[i - 1]


def by_pattern(root, point):
    for path in sources(root):
        lines = open(os.path.join(root, path), encoding='utf-8').read().split('\n')
        for i, line in enumerate(lines):
            if point == 6 and path.endswith('tests.rt'):
                continue  # a test writes its inputs and looks at the entries that it expects
            if is_code(line) and any(re.search(p, line) for p in PATTERNS[point]):
                yield path, i + 1, line.strip(), kept(lines, i)


HEAD = re.compile(r'^(\s*)(?:pub(?:\(\w+\))? )?fn (\w+)')


def functions(root):
    """Each function: where it stands, its name, its signature's parameters, its clauses, its body, whether it is kept."""
    for path in sources(root):
        lines = open(os.path.join(root, path), encoding='utf-8').read().split('\n')
        i = 0
        while i < len(lines):
            head = HEAD.match(lines[i])
            if not head:
                i += 1
                continue
            start, indent = i, head.group(1)
            while i < len(lines) and not (lines[i].startswith(indent + '}') or re.search(r'\{\}$|^\S.*;$|;$', lines[i])
                                          and '{' not in ''.join(lines[start:i])):
                i += 1
            chunk = lines[start:i + 1]
            clauses = [l.strip() for l in chunk if l.strip().startswith(('requires', 'ensures'))]
            text = ' '.join(l.strip() for l in chunk if not l.strip().startswith(('requires', 'ensures', '//')))
            signature, _, body = text.partition('{')
            params = re.findall(r'(\w+): ([^,()]+(?:\([^)]*\))?)', signature)
            yield path, start + 1, head.group(2), params, clauses, body, kept(lines, start)
            i += 1


def shape(body):
    words = re.findall(r'\w+|[^\w\s]', body)
    return ['n' if w.isdigit() else w for w in words]


def twins(root):
    found = [f for f in functions(root) if not f[0].endswith('tests.rt') and '_tests/' not in f[0]]
    shapes = [(f, shape(f[5])) for f in found]
    for a, (f, s) in enumerate(shapes):
        for g, t in shapes[a + 1:]:
            if min(len(s), len(t)) < 16 or abs(len(s) - len(t)) > 0.3 * max(len(s), len(t)):
                continue
            if difflib.SequenceMatcher(None, s, t, autojunk=False).ratio() >= 0.8:
                yield f[0], f[1], f'{f[2]} ~ {g[0]}:{g[1]} {g[2]}', f[6] or g[6]
    names = {f[2]: f for f in found}
    for name, f in sorted(names.items()):
        stem = re.sub(r'_?(fits?)$', '', name)
        for other in ('write_' + stem, 'write_' + re.sub(r'^(\w+)$', r'\1', stem), 'write'):
            if name.endswith(('fits', 'fit')) and other in names and other != name and (stem or other == 'write'):
                g = names[other]
                yield f[0], f[1], f'{name} measures what {g[0]}:{g[1]} {other} writes', f[6] or g[6]
                break


def repeated(root):
    facts, together = {}, {}
    for path, line, name, params, clauses, _, keep in functions(root):
        if path.endswith('tests.rt') or '_tests/' in path:
            continue
        for clause in clauses:
            body = re.sub(r'^(requires|ensures)\s*\w*\s*\{\s*|\s*\}\s*,?$', '', clause)
            for fact in re.split(r'\s→\s|\s×\s', body):
                fact = re.sub(r'\b(self|route|result|table|stops|line|a|b|buf)\.(now|old|new|entry)\b', 'it', fact).strip('() ')
                if len(fact) > 12 and not fact.startswith('result ≡'):
                    facts.setdefault(fact, {})[(path, line, name)] = keep
        names = [f'{n}: {t.strip()}' for n, t in params if n not in ('heap', 'rt', 'self')]
        for i in range(len(names)):
            for j in range(i + 1, len(names)):
                together.setdefault((names[i], names[j]), {})[(path, line, name)] = keep
    for fact, users in sorted(facts.items()):
        if len(users) >= 3:
            path, line, name = sorted(users)[0]
            yield path, line, f'fact in {len(users)}: {fact}', any(users.values())
    seen = set()
    for pair, users in sorted(together.items(), key=lambda p: -len(p[1])):
        group = frozenset(users)
        if len(users) >= 3 and group not in seen:
            seen.add(group)
            path, line, name = sorted(users)[0]
            yield path, line, f'together in {len(users)}: {pair[0]}, {pair[1]}', any(users.values())


def answers(root):
    base = os.path.join(root, 'crates')
    for top, _, files in sorted(os.walk(base)):
        if '/proofs' in top and '/out/' not in top:
            for name in sorted(files):
                if name in ('Answers.antt', 'Proof.antt'):
                    path = os.path.join(top, name)
                    for i, line in enumerate(open(path, encoding='utf-8')):
                        if re.match(r'pub [\w-]+ : goal\.', line):
                            yield os.path.relpath(path, root), i + 1, line.strip(), False


def main(args):
    only = int(args[args.index('--only') + 1]) if '--only' in args else None
    quiet = '--count' in args
    roots = [a for i, a in enumerate(args) if not a.startswith('--') and (i == 0 or args[i - 1] != '--only')]
    root = roots[0] if roots else '.'
    ways = {2: twins, 5: repeated, 8: answers}
    for point in range(1, 9):
        if only not in (None, point):
            continue
        places = list(ways[point](root) if point in ways else by_pattern(root, point))
        stay = sum(1 for p in places if p[3])
        print(f'{point}. {TITLES[point]}: {len(places)} places, {stay} of them with a reason to stay')
        for path, line, text, keep in ([] if quiet else places):
            print(f'   {"kept " if keep else ""}{path}:{line}: {text[:150]}')


if __name__ == '__main__':
    main(sys.argv[1:])
