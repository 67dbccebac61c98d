#!/usr/bin/env python3
"""Counts the pairs of places in src/ that share a run of five lines or more but for names, numbers and texts; with -l it lists them.

    python3 tools/count_twins.py [-l] [FOLDER]     FOLDER: the top of a checkout, else this folder

A pair is a place to look at: docs/DESIGN-PASS.md says what became of them. Clauses, imports, comments, fields, cases and tests are
left out.
"""
import collections
import glob
import re
import sys

RUN = 5
listed = '-l' in sys.argv
folders = [a for a in sys.argv[1:] if a != '-l']
top = folders[0] if folders else '.'


def shape(line):
    line = re.sub(r'//.*', '', line).strip()
    line = re.sub(r'"[^"]*"|b?\'[^\']*\'', 'T', line)
    return re.sub(r'\b(?!fn\b|if\b|else\b|for\b|in\b|match\b|while\b|let\b|return\b|struct\b|enum\b|impl\b)\w+\b', 'x', line)


def is_row(text):
    """A field of a struct or a case of an enum."""
    return re.match(r'(pub(\(crate\))? )?\w+(: [^=]*|\([^()]*\)| = \d+)?,( //.*)?$', text)


places = collections.defaultdict(list)
shapes = {}
for path in sorted(glob.glob(top + '/crates/*/src/**/*.rt', recursive=True)):
    name = path.split('/crates/')[-1]
    if 'examples' in name:
        continue
    rows = []
    for number, line in enumerate(open(path).read().split('#[cfg(test)]')[0].split('\n')):
        text = line.strip()
        if text and not re.match(r'//|use |ghost |mod |pub mod |requires|ensures|#', text) and not is_row(text):
            rows.append((number + 1, shape(line)))
    shapes[name] = rows
    for i in range(len(rows) - RUN + 1):
        run = tuple(s for _, s in rows[i:i + RUN])
        if sum(len(s) > 3 for s in run) >= 4:
            places[run].append((name, i))

seen = set()
pairs = []
for run, spots in places.items():
    if len(spots) > 8:
        continue
    for a in range(len(spots)):
        for b in range(a + 1, len(spots)):
            (one, i), (other, j) = spots[a], spots[b]
            if one == other and abs(i - j) < RUN:
                continue
            key = (one, other, i - j)
            if key not in seen:
                seen.add(key)
                pairs.append((one, shapes[one][i][0], other, shapes[other][j][0]))
print('2  %4d  pairs of places of one shape' % len(pairs))
if listed:
    for one, i, other, j in sorted(pairs):
        print('        %s:%d ~ %s:%d' % (one, i, other, j))
