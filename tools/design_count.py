#!/usr/bin/env python3
"""Counts the places that docs/DESIGN-PASS.md speaks of, in crates/*/src/*.rt of a commit: design_count.py [-l] COMMIT

One line for each measure: its point, its name, how many. With -l each place too. It reads text alone, so a measure may hold places
that are well as they are: the page says which."""
import collections
import re
import subprocess
import sys

ARGS = [a for a in sys.argv[1:] if a != '-l']
COMMIT = ARGS[0] if ARGS else 'HEAD'
LIST = '-l' in sys.argv


def git(*words):
    return subprocess.run(('git',) + words, capture_output=True, text=True, check=True).stdout


FILES = {}
for path in git('ls-tree', '-r', '--name-only', COMMIT, 'crates').split():
    if re.match(r'crates/\w+/src/\w+\.rt$', path):
        FILES[path] = git('show', COMMIT + ':' + path)

PLACES = collections.defaultdict(list)


def lines(measure, pattern):
    for path, text in FILES.items():
        for n, line in enumerate(text.split('\n'), 1):
            if not line.lstrip().startswith('//') and re.search(pattern, line):
                PLACES[measure].append('%s:%d: %s' % (path, n, line.strip()))


# 1. enums with two cases of which one holds what was found; numbers and flags in place of a Result or an Option
for path, text in FILES.items():
    for m in re.finditer(r'(?:pub )?enum (\w+)(?:<[^>]*>)? \{\n(.*?)\n\}', text, re.S):
        # the cases stand one level in; what is in braces is further in
        cases = re.findall(r'^    (\w+)(.*)$', re.sub(r'^ *//.*$', '', m.group(2), flags=re.M), re.M)
        cases = [c for c in cases if c[0][0].isupper()]
        held = [c for c in cases if c[1].lstrip()[:1] in ('(', '{')]
        if len(cases) == 2 and held:
            PLACES['1 enums of two cases, one or both with a value'].append('%s: %s' % (path, m.group(1)))
lines('1 fields that hold a refusal\'s number or 0', r'^\s+(pub )?number: u32,')
lines('1 tests of such a number', r'number (!=|==) 0|refused != 0')
lines('1 refusals written as numbers', r'\b(refused|Refused|stopped|refusal|refusal_of)\((.*, )?\d+\)')
lines('1 fields that are flags', r'^\s+(pub )?\w+: bool,')

# 2. functions of one name and one body, but for types and constants
BODIES = collections.defaultdict(list)
for path, text in FILES.items():
    for m in re.finditer(r'^ *(?:pub )?fn (\w+)[^{;]*?(?:\n +(?:requires|ensures)[^\n]*)*\s*\{\n(.*?)\n *\}\n', text, re.S | re.M):
        body = re.sub(r'\b(u8|u16|u32|u64|usize)\b', 'T', m.group(2))
        body = re.sub(r'\s+', ' ', body)
        if len(body) > 5:
            BODIES[m.group(1), body].append(path)
for (name, body), where in sorted(BODIES.items()):
    if len(where) > 1:
        PLACES['2 functions that stand twice or more'] += ['%s: %s' % (w, name) for w in where]

# 3. loops that count by hand
lines('3 while loops', r'^\s+while ')
lines('3 steps of a counter', r'^\s+\w+ [-+]= 1;')
lines('3 for loops over an index range to a length', r'for \w+ in \w+\.\.\w+\.len\(\)')

# 4. conversions, order and the like by hand
for path, text in FILES.items():
    for m in re.finditer(r'fn (\w+)(?:<[^>]*>)?\([^)]*\) -> [^{]*\{\n\s+\(?[\w.]+ as \w+\)?\n\s*\}', text):
        PLACES['4 functions that are one cast'].append('%s: %s' % (path, m.group(1)))
    for m in re.finditer(r'fn (\w+)\([^)]*\) -> [^{]*\{\n\s+if (\w+) <=? (\w+) \{ (\w+) \} else \{ (\w+) \}\n\s*\}', text):
        PLACES['4 functions that are a min or a max'].append('%s: %s' % (path, m.group(1)))
lines('4 calls of wrapping_.. as free functions', r'std::num::wrapping_')

# 5. facts and parameters that travel together
lines('5 clauses on numbers, ends, nodes and behind together', r'Ready numbers\.now ends\.now nodes\.now behind\.now')
lines('5 clauses on a reader\'s tally', r'\bTallied (start|result\.readers)')
for path, text in FILES.items():
    for m in re.finditer(r'fn (\w+)(?:<[^>]*>)?\(([^)]*)\)', text):
        names = re.findall(r'(\w+):', m.group(2))
        if len(names) > 4:
            PLACES['5 functions of more than four parameters'].append('%s: %s' % (path, m.group(1)))

# 6. rows with a length beside them
lines('6 fields that are an array of fixed length', r'^\s+(pub )?\w+: \[\w+; \w+\],')
lines('6 element copies by index', r'^\s+\w+\[[\w +]+\] = \w+\[[\w +]+\];')

# 7. which step, by a flag or a number
lines('7 matches and tests on a code', r'match (code|kind|mark|word|add)\b|\b(code|kind) == \d')

# 8. proofs
for part, pattern in (('answers', r'/Answers\.antt$'), ('invariants', r'/Invariants\.antt$'), ('lemmas', r'/proofs/\w+\.antt$')):
    count = 0
    for path in git('ls-tree', '-r', '--name-only', COMMIT, 'crates').split():
        if '/proofs/' in path and re.search(pattern, path):
            count += git('show', COMMIT + ':' + path).count('\n')
    PLACES['8 lines of ' + part] = count

for measure in PLACES:
    found = PLACES[measure]
    print('%s: %d' % (measure, found if isinstance(found, int) else len(found)))
    if LIST and not isinstance(found, int):
        for place in found:
            print('    ' + place)
