#!/usr/bin/env python3
"""Counts the places that docs/DESIGN-PASS.md speaks of, in crates/*/src at a commit or in the work tree.

    tools/places.py [--list] [COMMIT]

One line for each kind of place, under the points of that page; with --list each place too.
"""
import collections
import glob
import re
import subprocess
import sys


def sources(commit):
    if commit is None:
        names = sorted(glob.glob('crates/*/src/**/*.rt', recursive=True))
        return {n: open(n, encoding='utf-8').read() for n in names}
    listed = subprocess.run(['git', 'ls-tree', '-r', '--name-only', commit, 'crates'], capture_output=True, text=True, check=True)
    names = [n for n in listed.stdout.split('\n') if re.match(r'crates/\w+/src/.*\.rt$', n)]
    return {n: subprocess.run(['git', 'show', f'{commit}:{n}'], capture_output=True, text=True, check=True).stdout for n in names}


def parameters(head):
    """What stands between the parentheses of a function's parameters, behind its type parameters."""
    rest = head[re.search(r'\bfn \w+', head).end():].replace('->', '  ')
    deep, start = 0, None
    for i, c in enumerate(rest):
        if c == '(' and deep == 0:
            start = i + 1
        deep += (c in '(<[') - (c in ')>]')
        if c == ')' and deep == 0:
            return rest[start:i]
    return ''


class Function:
    """A function: its name, its parameters with their types, its clauses and its body."""

    def __init__(self, file, line, name, head, body):
        self.where = f'{file[len("crates/"):]}:{line} {name}'
        self.name, self.body = name, body
        inside = re.sub(r'\s+', ' ', parameters(head))
        self.params = [p.strip() for p in re.split(r',(?![^\[<(]*[\]>)])', inside) if p.strip()]
        self.clauses = re.findall(r'(requires|ensures)(?: \w+)? \{(.*?)\}\n', re.sub(r'\n\s+(?=\S)(?!requires|ensures)', ' ', head) + '\n', re.S)
        self.head = head


def functions(files):
    found = []
    for file, text in files.items():
        for m in re.finditer(r'^( *)(?:pub(?:\(crate\))? )?fn (\w+)', text, re.M):
            indent = m.group(1)
            end = re.search(r'^' + indent + r'\}', text[m.start():], re.M)
            whole = text[m.start():m.start() + end.end()] if end else ''
            cut = re.search(r'^' + indent + r'\{|\{$', whole, re.M)
            head, body = (whole[:cut.start()], whole[cut.start():]) if cut else (whole, '')
            found.append(Function(file, text[:m.start()].count('\n') + 1, m.group(2), head, body))
    return found


def lines(files, pattern):
    return [f'{f[len("crates/"):]}:{i} {l.strip()}' for f, t in files.items() for i, l in enumerate(t.split('\n'), 1)
            if re.search(pattern, l) and not l.strip().startswith('//')]


def own_results(files):
    """Enums of which some variant holds a value and some other says that there is none, or a refusal."""
    found = []
    for file, text in files.items():
        for m in re.finditer(r'enum (\w+) \{(.*?)\n\}', text, re.S):
            body = re.sub(r'//.*', '', m.group(2))
            names = re.findall(r'^\s+(\w+)', body, re.M)
            if '(' in body and any(n in ('None', 'Nothing', 'Refused', 'NotComparable') for n in names):
                found.append(f'{file[len("crates/"):]} {m.group(1)}')
    return found


def twins(funs):
    """Groups of functions whose bodies differ only in names and numbers."""
    shapes = collections.defaultdict(list)
    for f in funs:
        words = re.findall(r'b?"[^"]*"|b?\'.\'|\w+|[^\w\s]', re.sub(r'//.*', '', f.body))
        seen, shape = {}, []
        for w in words:
            if re.match(r'b?["\']|\d', w):
                shape.append('0')
            elif re.match(r'\w', w) and w not in KEYWORDS:
                shape.append('n%d' % seen.setdefault(w, len(seen)))
            else:
                shape.append(w)
        if len(shape) > 24:
            shapes[' '.join(shape)].append(f.where)
    return [' = '.join(g) for g in shapes.values() if len(g) > 1]


KEYWORDS = set('if else while for in loop match return let mut break true false as fn'.split())


def index_loops(funs):
    """Loops that count an index by hand, and ranges whose number is an index of a slice or an array in the loop's body."""
    whiles, ranges = [], []
    for f in funs:
        for m in re.finditer(r'while (\w+)(?: \+ 1)? < ', f.body):
            if re.search(r'\b%s \+= 1' % m.group(1), f.body):
                whiles.append(f.where)
        for m in re.finditer(r'for (\w+) in [^{]*\.\.[^{]* \{', f.body):
            if re.search(r'\[%s( as usize)?\]' % m.group(1), f.body):
                ranges.append(f.where)
        if re.search(r'\bloop \{', f.body) and re.search(r'from = end \+ 1', f.body):
            whiles.append(f.where)
        for m in re.finditer(r'while let [^{]* \{', f.body):
            if re.search(r'^\s+\w+ \+= 1;', f.body[m.end():], re.M):
                whiles.append(f.where)
        for m in re.finditer(r'for \((\w+), \w+\) in [^{]*enumerate\(\) \{(.*?)\n    \}', f.body, re.S):
            uses = re.findall(r'\b%s\b' % m.group(1), m.group(2))
            if uses and len(uses) == len(re.findall(r'\[%s\]' % m.group(1), m.group(2))):
                ranges.append(f.where)
    return whiles, ranges


def repeated(funs):
    """Clauses that three or more functions have, and pairs of parameters that three or more have."""
    clauses = {'requires': collections.Counter(), 'ensures': collections.Counter()}
    pairs = collections.Counter()
    for f in funs:
        for kind, text in set(f.clauses):
            clauses[kind][re.sub(r'\s+', ' ', text).strip()] += 1
        plain = [p for p in f.params if not p.endswith('self') and ':' in p]
        for i, a in enumerate(plain):
            for b in plain[i + 1:]:
                pairs[(a, b)] += 1
    often = [f'{n} × {kind} {{ {t} }}' for kind, c in clauses.items() for t, n in c.most_common() if n >= 3]
    together = [f'{n} × ({a}, {b})' for (a, b), n in pairs.most_common() if n >= 3]
    return often, together


def main():
    args = [a for a in sys.argv[1:] if a != '--list']
    files = sources(args[0] if args else None)
    funs = functions(files)
    whiles, ranges = index_loops(funs)
    often, together = repeated(funs)
    table = [
        ('1', 'enums of the shape of Option or Result', own_results(files)),
        ('1', 'flags and refusal numbers in a struct beside a value', lines(files, r'^\s+pub (refusal: u8|place: Place|numbers: bool|fits: bool),')),
        ('1', 'functions that answer a refusal or a kind as a number',
         [f.where for f in funs if re.search(r'-> u8', f.head) and (re.search(r'first_no|check_of|check_record_of|refusal_of', f.head) or f.name == 'ready')]),
        ('1', 'arrays of flags beside arrays of values', lines(files, r'known: &(mut )?\[bool|let mut known = \[false')),
        ('2', 'groups of functions whose bodies differ only in names and numbers', twins(funs)),
        ('3', 'loops that count an index by hand', whiles),
        ('3', 'ranges whose number is an index in the body', ranges),
        ('4', 'comparisons, choices and exchanges written by hand',
         [f.where for f in funs if re.match(r'same|exchange$|smaller$', f.name)]),
        ('4', 'uses of the hand-written `smaller`', lines(files, r'(?<!fn )\bsmaller\(')),
        ('5', 'clauses that three or more functions have', often),
        ('5', 'pairs of parameters that three or more functions have', together),
        ('6', 'structs of an array and its length', lines(files, r'^\s+pub count: u(8|16),')),
        ('6', 'functions of a buffer and a place in it', [f.where for f in funs if 'buffer: &mut [u8]' in f.params and 'at: usize' in f.params]),
        ('6', 'functions of two parallel arrays', [f.where for f in funs if any(p.startswith('cleared:') for p in f.params)]),
        ('7', 'switches by a number on what to run', lines(files, r'^\s+\d+ => ')),
    ]
    for point, name, places in table:
        print(f'{point}  {len(places):4}  {name}')
        if '--list' in sys.argv:
            for p in places:
                print('         ' + p)


main()
