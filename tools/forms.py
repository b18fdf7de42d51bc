#!/usr/bin/env python3
"""Counts the places of the older forms in src/, point by point as docs/DESIGN-PASS.md numbers them: tools/forms.py [-v] [CRATE..]."""
import collections
import os
import re
import sys

ROOT = os.path.dirname(os.path.dirname(os.path.abspath(__file__)))
FUNCTION = re.compile(
    r'^( *)((?:pub )?)(?:extern "C" )?fn (\w+)(?:<[^>]*>)?\(([^{]*?)\)(?: -> [^\n{]*)?\s*\n?(.*?)^\1\{\n(.*?)^\1\}', re.M | re.S)
KEEP = set('if else while for in let mut return match as true false break loop pub fn'.split())
Function = collections.namedtuple('Function', 'place name public params clauses body')


def sources(crates):
    for line in open(os.path.join(ROOT, 'crates.txt')):
        crate = re.split(r'[: ]', line.strip())[0]
        if not crate or (crates and crate not in crates):
            continue
        for folder, _, files in sorted(os.walk(os.path.join(ROOT, 'crates', crate, 'src'))):
            for name in sorted(files):
                if name.endswith('.rt'):
                    path = os.path.join(folder, name)
                    yield os.path.relpath(path, os.path.join(ROOT, 'crates')), open(path).read()


def functions(path, text):
    for m in FUNCTION.finditer(text):
        params = [p.split(':')[0].replace('mut ', '').strip() for p in re.split(r',\s*(?![^<\[]*[>\]])', m.group(4)) if ':' in p]
        line = text.count('\n', 0, m.start()) + 1
        yield Function(f'{path}:{line}', m.group(3), bool(m.group(2)), params, m.group(5), m.group(6))


def lines(path, text, pattern):
    return [f'{path}:{n} {l.strip()}' for n, l in enumerate(text.split('\n'), 1) if re.search(pattern, l)]


def shape(body):
    tokens = re.findall(r'[A-Za-z_]\w*|\d+|[^\s\w]', re.sub(r'//[^\n]*', '', body))
    return ' '.join(t if t in KEEP or not re.match(r'\w', t) else '0' if t[0].isdigit() else 'x' for t in tokens)


def counted_loops(path, text):
    found = []
    for m in re.finditer(r"^( *)(?:'\w+: )?while ([^\n]*)\{\n(.*?)^\1\}", text, re.M | re.S):
        names = set(re.findall(r'[a-z_]\w*', m.group(2)))
        steps = set(re.findall(r'^\s*(\w+) [+-]= 1;', m.group(3), re.M))
        if names & steps:
            found.append(f'{path}:{text.count(chr(10), 0, m.start()) + 1} while {m.group(2).strip()}')
    return found


def main():
    verbose = '-v' in sys.argv
    files = list(sources([a for a in sys.argv[1:] if a != '-v']))
    every = [f for p, t in files for f in functions(p, t)]
    places = collections.OrderedDict()

    def by_line(title, pattern):
        places[title] = [x for p, t in files for x in lines(p, t, pattern)]

    places['1a enums of the shape of Option or Result'] = [
        f'{p}:{t.count(chr(10), 0, m.start()) + 1} {m.group(1)}'
        for p, t in files for m in re.finditer(r'^(?:pub )?enum (\w+) \{((?:\n    \w+(?:\([^\n]*\))?,){2})\n\}', t, re.M) if '(' in m.group(2)]
    by_line('1b a flag beside values', r'^\s+(pub )?\w+: bool,$')
    by_line('1c a number that says what refuses', r'^    (pub )?(number|refusal|wrong|barred): u16,$')
    by_line('1d a 0 that stands for none', r'^// .*(, 0 (if|for|where)|; 0 (if|for|where)|\b0 where (nothing|there is none)|0 is none|, 0 at none|0 and 0 for none)')
    by_line("1e a node's tag as a number", r'\btag\b ?(==|!=|<=?|>)|\d < [a-z.]*tag|match tag|tag: \d|, \d, from, to')
    groups = collections.defaultdict(list)
    for f in every:
        s = shape(f.body)
        if s.count(' ') >= 24:
            groups[s].append(f'{f.place} {f.name}')
    places['2 functions with a body of one shape'] = [', '.join(g) for g in groups.values() if len(g) > 1]
    places['3 loops that count an index by hand'] = [x for p, t in files for x in counted_loops(p, t)]
    by_line('4a equality through a field', r'\.0 [!=]= ')
    places['4b min, max, choice, subtraction, casts and packing as functions'] = [
        f'{f.place} {f.name}' for f in every
        if re.match(r'(larger|less|either|only_if|unless|before|wide|narrow|short|joined|paired|named|bound_above|user_in|bound_with|packed|unpacked)$', f.name)]
    places['4c a struct copied field by field'] = [
        f'{f.place} {f.name}' for f in every
        if any(n >= 2 for n in collections.Counter(a for a, b, c in re.findall(r'^\s+(\w+): (\w+)\.(\w+),$', f.body, re.M) if a == c).values())
        or len(re.findall(r'^\s+(\w+): \w+\.\1,$', f.body, re.M)) >= 2]
    for pair in (('file', 'head'), ('sends', 'receives'), ('threads', 'beside'), ('threads', 'owners'), ('text', 'starts'), ('i', 'there', 'moved')):
        places['5a parameters together: ' + ', '.join(pair)] = [f'{f.place} {f.name}' for f in every if all(x in f.params for x in pair)]
    for fact in ('Laid file.now head', 'Granting', 'Sized threads', 'LineRows lines', 'length roles.', 'all_text'):
        places['5b a fact in contracts: ' + fact] = [f'{f.place} {f.name}' for f in every if fact in f.clauses]
    by_line('6 a fixed buffer of the function\'s own', r'= \[[^\[\]]*; \w+\];|= \[\[.*; \w+\];')
    by_line('7 a switch on which step to run', r'^\s*match (section|tag) \{')
    for title, found in places.items():
        print(f'{len(found):4}  {title}')
        if verbose:
            print(''.join(f'        {x}\n' for x in found), end='')


main()
