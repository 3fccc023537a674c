#!/usr/bin/env python3
"""Lists the places of src/ that docs/DESIGN-PASS.md counts, a line for each: python3 tools/places.py [POINT]."""
import collections
import glob
import re
import sys

files = {}
for path in sorted(glob.glob('crates/*/src/**/*.rt', recursive=True)):
    files[path] = open(path, encoding='utf-8').read().split('\n')

FN = re.compile(r'^\s*(?:pub(?:\(crate\))? )?(?:const )?fn (\w+)')
found = collections.OrderedDict((point, []) for point in '1a 1b 1c 1d 1e 2a 3a 3b 4a 4b 5a 5b 6a 7a'.split())


def where(lines, at):
    """The function that a line stands in."""
    for i in range(at, -1, -1):
        m = FN.match(lines[i])
        if m:
            return m.group(1)
    return '-'


def note(point, path, at, what):
    found[point].append((path[7:], at + 1, where(files[path], at), what.strip()))


LINES = [
    ('1a', re.compile(r'^\s*(pub )?enum \w+')),
    ('1b', re.compile(r'^\s+(pub(\(crate\))? )?\w+: bool,$|let mut \w+ = (true|false);')),
    ('1c', re.compile(r'match self\.operation|\.operation (==|>|<)|=> \d+,|\d for none|or \d+ (where|for) n')),
    ('1d', re.compile(r'-> Option<(Fault|Refusal)>')),
    ('1e', re.compile(r'let (Some|Ok)\(\w+\) = .* else \{|^\s*(None|Err\(_?\w*\)) => ')),
    ('3a', re.compile(r'^\s*for \w+ in .*\.\.')),
    ('3b', re.compile(r'^\s*\w+ \+= 1;|let mut (number|times|count|found)\b')),
    ('4b', re.compile(r'fn (is_same|is_changed|bare|word|number|node|possible|ends)\(|^impl fmt::Display|^impl.* From<')),
    ('6a', re.compile(r'^\s+(pub(\(crate\))? )?\w+: \[.*; (127|MOST_NODES)\]|: &mut \[|: \[\[u16; 4\]; \d+\]')),
    ('7a', re.compile(r'^\s*match (operation|holder|axis|self\.operation|relation|left|right|edge)\b')),
]
for path, lines in files.items():
    for at, line in enumerate(lines):
        for point, pattern in LINES:
            if pattern.search(line):
                note(point, path, at, line)
        m = re.match(r'^\s*(?:pub(?:\(crate\))? )?(?:struct|enum) (\w+)', line)
        if m:
            derived = ' '.join(l for l in lines[max(0, at - 3):at] if 'derive' in l)
            if 'PartialEq' not in derived or 'Debug' not in derived:
                note('4a', path, at, m.group(1))

# 2a: functions whose clauses are another's, up to the names of the parameters.
contracts = collections.defaultdict(list)
requires = collections.defaultdict(list)
for path, lines in files.items():
    for at, line in enumerate(lines):
        m = FN.match(line)
        if not m:
            continue
        head = line
        i = at
        while not head.rstrip().endswith('{') and i + 1 < len(lines) and lines[i].strip() not in ('{', '}'):
            i += 1
            head += '\n' + lines[i]
            if lines[i].strip() == '{':
                break
        clauses = re.findall(r'(ensures|requires) (?:\w+ )?\{ (.*) \}', head)
        names = ['self'] + re.findall(r'(\w+): ', head.split('->')[0].split('ensures')[0].split('requires')[0])
        text = []
        for kind, clause in clauses:
            if kind == 'requires':
                for fact in re.split(r' × ', clause.replace('(', '').replace(')', '')):
                    fact = re.sub(r'\b(%s)\.(now|old|new)' % '|'.join(names), r'_', fact)
                    requires[path.split('/')[1], fact].append((path, at, m.group(1)))
            for n, name in enumerate(names):
                clause = re.sub(r'\b%s(\.now|\.old|\.new)?\b' % name, '_', clause)
            text.append(kind + clause)
        if text and any(t.startswith('ensures') for t in text):
            contracts[path.split('/')[1], tuple(text)].append((path, at, m.group(1)))
for (crate, text), group in contracts.items():
    if len(group) > 1:
        for path, at, name in group[1:]:
            note('2a', path, at, name + ' as ' + group[0][2])
for (crate, fact), group in requires.items():
    if len(group) > 2:
        found['5a'].append((crate, len(group), '-', fact))

# 5b: parameters of the same names and types in three or more functions of a crate.
pairs = collections.defaultdict(set)
for path, lines in files.items():
    text = '\n'.join(lines)
    for m in re.finditer(r'fn (\w+)(?:<[^(]*>)?\(([^)]*)\)', text):
        params = [p.strip() for p in m.group(2).split(',') if ':' in p and 'rt:' not in p]
        for i in range(len(params) - 1):
            pairs[path.split('/')[1], params[i] + ', ' + params[i + 1]].add(m.group(1))
for (crate, pair), names in pairs.items():
    if len(names) > 2:
        found['5b'].append((crate, len(names), '-', pair))

for point, places in found.items():
    if len(sys.argv) > 1:
        if point.startswith(sys.argv[1]):
            for place in places:
                print(point, *place)
    else:
        print(point, len(places))
