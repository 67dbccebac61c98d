#!/usr/bin/env python3
"""Counts the places in src/ of the older forms that docs/DESIGN-PASS.md goes through; with -l it lists them.

    python3 tools/count_forms.py [-l] [FOLDER]     FOLDER: the top of a checkout, else this folder

A row is a place to look at, not yet a fault: the page says of each what became of it.
"""
import collections
import glob
import re
import sys

listed = '-l' in sys.argv
folders = [a for a in sys.argv[1:] if a != '-l']
top = folders[0] if folders else '.'
files = sorted(glob.glob(top + '/crates/*/src/**/*.rt', recursive=True))
texts = {f: open(f).read() for f in files}


def name(path):
    return path.split('/crates/')[-1]


def lines(pattern, but=None):
    found = []
    for f, text in texts.items():
        for i, line in enumerate(text.split('\n')):
            if re.search(pattern, line) and not (but and re.search(but, line)):
                found.append('%s:%d: %s' % (name(f), i + 1, line.strip()))
    return found


def show(point, what, found):
    print('%s  %4d  %s' % (point, len(found), what))
    if listed:
        for row in found:
            print('        ' + row)


def two_case_enums():
    found = []
    for f, text in texts.items():
        for m in re.finditer(r'enum (\w+)[^{;]*\{(.*?)\n\}', text, re.S):
            body = re.sub(r'//[^\n]*', '', m.group(2))
            cases = re.findall(r'^    (\w+)(\([^)]*\)| \{)?', body, re.M)
            held = [c for c in cases if c[1]]
            if len(cases) == 2 and held:
                found.append('%s: %s: %s' % (name(f), m.group(1), ', '.join(c[0] + c[1].strip(' {') for c in cases)))
    return found


def facts():
    """Facts that stand in the `requires` of three or more functions of one crate."""
    seen = collections.defaultdict(set)
    for f, text in texts.items():
        crate = name(f).split('/')[0]
        for m in re.finditer(r'fn (\w+)[^{]*?\n((?:\s+requires[^\n]*\n)+)', text):
            for clause in re.findall(r'requires(?: \w+)? \{ (.*) \}', m.group(2)):
                for part in re.split(r' × ', clause):
                    part = re.sub(r'\.(old|new|now|entry)\b', '', part).strip('() ')
                    seen[crate, part].add(m.group(1))
    return ['%s: %s: %s' % (c, p, ', '.join(sorted(fs))) for (c, p), fs in sorted(seen.items()) if len(fs) >= 3]


def together():
    """Two parameters, by name and type, that stand side by side in four or more functions of one crate."""
    seen = collections.defaultdict(set)
    for f, text in texts.items():
        crate = name(f).split('/')[0]
        for m in re.finditer(r'fn (\w+)(?:<[^>]*>)?\(([^)]*)\)', text):
            ps = [p.strip() for p in re.split(r',\s', m.group(2).replace('\n', ' ')) if ':' in p]
            for a, b in zip(ps, ps[1:]):
                seen[crate, a, b.rstrip(',')].add(m.group(1))
    return ['%s: %s, %s: %s' % (c, a, b, ', '.join(sorted(fs))) for (c, a, b), fs in sorted(seen.items()) if len(fs) >= 4]


arm = r'^\s*(None|Some\(_\)|Err\(_\)|Ok\(\(\)\)|Err\(\w+\)) => '
show('1', 'arms on an Option or a Result spelled out', lines(arm))
show('1', 'enums of two cases with a value', two_case_enums())
show('1', 'a number for each case of an enum', lines(r'\w+::\w+(\([^)]*\))? => \d+,'))
show('1', 'flags in a struct', lines(r'^\s*(pub )?\w+: bool,'))
show('3', 'loops that count', lines(r'^\s*(while |for \w+ in [0-9a-z_.]+\.\.)', r'while let'))
show('4', 'texts of a value', lines(r"-> &'static str"))
show('4', 'comparisons by hand', lines(r'\.rank\(\)|fn (is|same_\w+|precedes|lower|earlier|names|is_named)\('))
show('4', 'bytes made of a number and back by hand', lines(r'fn \w*(hex|digit|pair)\w*\('))
show('5', 'facts in the requires of three or more functions', facts())
show('5', 'parameters that stand together in four or more functions', together())
show('6', 'a count or a place in a row beside it', lines(r'^\s*(pub )?(count|size|depth|laid|at): (usize|u8|u16),'))
show('7', 'a match that picks the step by a case of its own', lines(r'^\s*\w+::\w+(\(\w+\))? => (self\.)?\w+\([^)]*\),?$'))
