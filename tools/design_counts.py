#!/usr/bin/env python3
"""Counts the places in src/ that the design pass looks at, point by point: tools/design_counts.py [POINT] prints each place of a point,
without an argument the counts alone. docs/DESIGN-PASS.md says what each count means."""
import collections
import glob
import re
import signal
import sys


def closing(text, at):
    """The place behind the bracket that closes the one at `at`."""
    pairs = {'(': ')', '{': '}', '[': ']'}
    depth, opens, closes = 0, text[at], pairs[text[at]]
    for i in range(at, len(text)):
        if text[i] == opens:
            depth += 1
        elif text[i] == closes:
            depth -= 1
            if depth == 0:
                return i + 1
    return len(text)


class Function:
    def __init__(self, path, text, match):
        self.path, self.name = path, match.group('name')
        self.line = text.count('\n', 0, match.start('name')) + 1
        before = text[:match.start()].rstrip().split('\n')
        doc = []
        while before and re.match(r'\s*(//|#\[)', before[-1]):
            doc.append(before.pop())
        self.doc = ' '.join(reversed(doc))
        paren = text.index('(', match.end('name'))
        end = closing(text, paren)
        self.parameters = [p.strip() for p in split(text[paren + 1:end - 1]) if p.strip()]
        self.clauses, at = [], end
        result = re.compile(r'\s*->\s*').match(text, at)
        self.result = ''
        if result:
            stop = re.compile(r'\n|\s+where\b|\s*\{').search(text, result.end())
            self.result, at = text[result.end():stop.start()].strip(), stop.start()
        while True:
            clause = re.compile(r'\s*(requires|ensures)\b\s*([a-z_0-9]*)\s*\{').match(text, at)
            if not clause:
                break
            stop = closing(text, clause.end() - 1)
            self.clauses.append((clause.group(1), ' '.join(text[clause.end():stop - 1].split())))
            at = stop
        body = re.compile(r'[^{;]*([{;])').match(text, at)
        self.body = text[body.end() - 1:closing(text, body.end() - 1)] if body and body.group(1) == '{' else ''

    def place(self):
        return f'{self.path}:{self.line} {self.name}'


def split(parameters):
    depth, part, parts = 0, '', []
    for c in parameters:
        depth += (c in '([{<') - (c in ')]}>')
        if c == ',' and depth == 0:
            parts.append(part)
            part = ''
        else:
            part += c
    return parts + [part]


FN = re.compile(r'^[ \t]*(?:pub(?:\([a-z]+\))? )?(?:const )?fn (?P<name>\w+)', re.M)
SOURCES = sorted(glob.glob('crates/*/src/**/*.rt', recursive=True))
TEXTS = {p: open(p).read() for p in SOURCES}
FUNCTIONS = [Function(p, t, m) for p, t in TEXTS.items() for m in FN.finditer(t)]


def crate(path):
    return path.split('/')[1]


def lines(pattern, paths=None):
    found = []
    for p in paths or SOURCES:
        for n, line in enumerate(TEXTS[p].split('\n'), 1):
            if re.search(pattern, line) and not line.lstrip().startswith('//'):
                found.append(f'{p}:{n} {line.strip()}')
    return found


def groups(sizes):
    """Pairs of parameters, in three functions of a crate or more."""
    pairs = collections.defaultdict(list)
    for f in FUNCTIONS:
        names = sorted({' '.join(p.split()) for p in f.parameters if ':' in p})
        for i, a in enumerate(names):
            for b in names[i + 1:]:
                pairs[(crate(f.path), a, b)].append(f.place())
    return [f'{c}: {a}, {b} in {len(v)} functions' for (c, a, b), v in sorted(pairs.items()) if len(v) >= sizes]


def repeated():
    clauses = collections.defaultdict(list)
    for f in FUNCTIONS:
        for kind, text in set(f.clauses):
            if kind != 'requires':
                continue
            for part in re.split(r' × ', text):
                part = part.strip()
                while part.startswith('(') and part.endswith(')') and closing(part, 0) == len(part):
                    part = part[1:-1].strip()
                clauses[(crate(f.path), part.strip('() '))].append(f.place())
    return [f'{c}: {t} in {len(v)} functions' for (c, t), v in sorted(clauses.items()) if len(v) >= 3]


def chains():
    """Functions with three comparisons or more with literals or constants, each of which ends in a return or a value."""
    found = []
    for f in FUNCTIONS:
        compared = len(re.findall(r'[=!<>]=?\s*(?:b?\'(?:\\.|[^\'])+\'|b?"[^"]*"|[0-9]+\b|[A-Z][A-Z_]+\b)', f.body))
        called = len(re.findall(r'\(\w+(?:, \w+)*, b"[^"]*"\)', f.body))
        if compared + called >= 3 and re.search(r'return|true|\|\|', f.body):
            found.append(f.place())
    return found


def switches():
    found = []
    for f in FUNCTIONS:
        for m in re.finditer(r'\bmatch\b[^{;]*\{', f.body):
            inner = f.body[m.end():closing(f.body, m.end() - 1) - 1]
            calls = re.findall(r'=>\s*(?:self\.)?[a-z_]+(?:::[a-z_]+)*\(', inner)
            if len(calls) >= 4:
                found.append(f'{f.place()} ({len(calls)} arms)')
    return found


def same_names():
    names = collections.defaultdict(set)
    for f in FUNCTIONS:
        if not f.path.endswith('tests.rt') and f.name not in ('fmt', 'from', 'new', 'main'):
            names[f.name].add(crate(f.path))
    return [f'{n}: {", ".join(sorted(c))}' for n, c in sorted(names.items()) if len(c) > 1]


def searches():
    """Loops over a list that compare a name or a number and leave with what they found."""
    found = []
    for f in FUNCTIONS:
        for m in re.finditer(r'\bfor\b[^{]*\{', f.body):
            inner = f.body[m.end():closing(f.body, m.end() - 1) - 1]
            if re.search(r'if [^{]*==[^{]*\{\s*return', inner):
                found.append(f.place())
    return found


def refusals():
    words = r'or a refusal|or there is no room|or none|no room|where there is room'
    return [f.place() for f in FUNCTIONS if f.result == 'bool' and (re.search(words, f.doc) or re.search(r'NoRoom|Refus|Err\(', f.body))]


def flags():
    found = []
    for p in SOURCES:
        for m in re.finditer(r'struct (\w+)[^{;(]*\{', TEXTS[p]):
            inner = TEXTS[p][m.end():closing(TEXTS[p], m.end() - 1)]
            if re.search(r'\b(found|has_\w+|valid|ok|present|tag): (bool|u32)', inner):
                found.append(f'{p} {m.group(1)}')
    return found


def handed_on():
    patterns = r'if let Err\((\w+)\) = [^{]*\{\s*return Err\(\1\);\s*\}', r'Err\((\w+)\) => return Err\(\1\)', r'let (\w+) = [^;]*\?;\s*Ok\(\1\)\s*\}'
    return [f'{p}:{TEXTS[p].count(chr(10), 0, m.start()) + 1}' for p in SOURCES for x in patterns for m in re.finditer(x, TEXTS[p])]


INTEGER = r'^\s*(pub(\([a-z]+\))? )?const [A-Z_0-9]+: (u8|u32|u64|usize)\b'
POINTS = {
    '1': [
        ('constants of an integer type', lambda: lines(INTEGER)),
        ('functions that answer true for done and false for refused', refusals),
        ('structs with a flag or a tag beside the value', flags),
        ('functions that answer a number and carry a theorem alone', lambda: [f.place() for f in FUNCTIONS if f.result == 'u8' and re.fullmatch(r'\{\s*0\s*\}', f.body)]),
        ('arms of a match on a bare number', lambda: lines(r'^\s*[0-9]+(\.\.=[0-9a-zA-Z:]+)? => ')),
        ('errors handed on by hand', handed_on),
    ],
    '2': [('names of functions that stand in more crates than one', same_names)],
    '3': [
        ('loops by while or loop', lambda: lines(r'^\s*(\'\w+: )?(while|loop)\b')),
        ('for over a range of numbers', lambda: lines(r'\bfor \w+ in [^{]*\.\.')),
    ],
    '4': [
        ('functions that compare with three literals or more', chains),
        ('impls of a trait that can be derived', lambda: lines(r'^impl.* (PartialEq|Eq|PartialOrd|Ord|Clone|Copy|Default|Debug|Hash) for ')),
        ('matches that end in a bool', lambda: lines(r'_ => (false|true),')),
    ],
    '5': [
        ('requires that stand in three functions of a crate or more', repeated),
        ('pairs of parameters in five functions of a crate or more', lambda: groups(5)),
    ],
    '6': [
        ('parameters that are a length or a place in a slice beside them', lambda: [f.place() for f in FUNCTIONS if any(re.match(r'(n|len|count|total): usize', p) for p in f.parameters) and any(re.search(r'&(mut )?\[', p) for p in f.parameters)]),
        ('structs of two places', lambda: lines(r'^\s*pub from: usize,|^\s*from: usize,')),
        ('searches by hand', searches),
    ],
    '7': [('matches of which four arms or more call a function', switches)],
}

if __name__ == '__main__':
    wanted = sys.argv[1:]
    signal.signal(signal.SIGPIPE, signal.SIG_DFL)
    for point, counts in POINTS.items():
        if wanted and point not in wanted:
            continue
        for what, found in counts:
            places = found()
            print(f'{point}: {what}: {len(places)}')
            if wanted:
                by_crate = collections.Counter(re.match(r'crates/(\w+)', x).group(1) for x in places if x.startswith('crates/'))
                print('   ', ', '.join(f'{c} {n}' for c, n in sorted(by_crate.items())))
                for x in places:
                    print('   ', x)
