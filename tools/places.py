#!/usr/bin/env python3
"""Counts, for docs/DESIGN-PASS.md, the places in crates/*/src that are written as an older Rattle wanted them.

tools/places.py            how many places there are of each kind
tools/places.py KIND..     these places, each with its file and line
tools/places.py --at DIR   the same for another checkout
"""
import collections
import pathlib
import re
import sys

FN = re.compile(r'^(\s*)(?:pub(?:\(crate\))? )?fn (\w+)(?:<[^(]*>)?\(')
NUMBER = r'(?:u8|u16|u32|u64|usize)'


def functions(path):
    """Each function of a file: its line, its name, its parameters, its clauses and its body."""
    lines = path.read_text().split('\n')
    for i, line in enumerate(lines):
        m = FN.match(line)
        if not m:
            continue
        end = next(j for j in range(i, len(lines)) if re.match(r'^%s\S*}$' % m.group(1), lines[j])
                   or (j == i and lines[j].endswith('}')))
        text = lines[i:end + 1]
        head = []
        while text and not re.match(r'^%s{$' % m.group(1), text[0]) and not (head and text[0].endswith(' {')):
            head.append(text.pop(0))
            if head[-1].endswith(' {') and len(head) == 1:
                break
        joined = ' '.join(x.strip() for x in head)
        depth, at = 0, joined.index('(')
        for k in range(at, len(joined)):
            depth += {'(': 1, ')': -1}.get(joined[k], 0)
            if depth == 0:
                break
        params = [p.strip() for p in joined[at + 1:k].split(',') if p.strip()]
        clauses = re.findall(r'(?:requires|ensures)(?: \w+)? \{ (.*?) \}(?= requires| ensures| \{|$)', joined[k + 1:])
        yield i + 1, m.group(2), params, clauses, '\n'.join(text)


def normal(body):
    """A body with its types, numbers and names of slices taken out, so that twins are alike."""
    body = re.sub(r'\b(?:u8|u16|u32|u64|usize|i8|f32)\b', 'T', body)
    names = {}
    word = lambda m: names.setdefault(m.group(0), 'n%d' % len(names)) if not re.match(r'T$|while$|if$|else$|let$|mut$|return$|match$|as$|for$|in$|n\d+$', m.group(0)) else m.group(0)
    body = re.sub(r'\b\d[\d_]*(?:T)?\b', '0', body)
    return re.sub(r'\b[A-Za-z_]\w*\b', word, body)


def places(top):
    """Every place, by kind."""
    found = collections.defaultdict(list)
    bodies = collections.defaultdict(list)
    facts = collections.defaultdict(list)
    for path in sorted(top.glob('crates/*/src/**/*.rt')):
        name = str(path.relative_to(top / 'crates'))
        lines = path.read_text().split('\n')
        for n, line in enumerate(lines, 1):
            where = f'{name}:{n}: {line.strip()}'
            if re.match(r'\s*(pub(\(crate\))? )?enum ', line):
                found['1 enums'].append(where)
            if re.match(r'\s*(pub )?\w+: bool,$', line):
                found['1 flags'].append(where)
            if re.search(r'\b(code|refusal|fault|end|kind|waits|bad|reason|keep|told|mode|verdict|status)\w*: %s\b' % NUMBER, line):
                found['1 numbers for kinds'].append(where)
            if re.match(r'\s*(while|loop)\b', line):
                found['3 loops by hand'].append(where)
            if re.search(r'\[(?:u8|u16|u32|u64|usize|f32)?\w*; \w+\]', line) and 'const' not in line:
                found['6 arrays of a fixed size'].append(where)
            if re.match(r'\s*(if|} else if) \w+ == \d+ \{', line) or re.match(r'\s*\d+ => ', line):
                found['7 switches on a number'].append(where)
        for n, fn, params, clauses, body in functions(path):
            where = f'{name}:{n}: {fn}'
            inner = re.sub(r'^\s*\{|\}\s*$', '', body).strip()
            if re.fullmatch(r'\w+ as \w+', inner) or re.fullmatch(r'\w+::from\(\w+\)', inner):
                found['4 conversions by hand'].append(where)
            if re.match(r'(same|equal|number|number_of|refusal|code_of)$', fn):
                found['4 equality and numbers by hand'].append(where)
            types = [p.split(': ', 1)[-1] for p in params]
            names = [p.split(': ', 1)[0] for p in params]
            text = ' '.join(names)
            for kind, run in (('5 table in three', 'count offsets ids'), ('5 grid in three', 'width height mode'),
                              ('5 domains, counts, pending', 'domains counts pending'), ('5 floats, marks', 'floats marks'),
                              ('5 page in two', 'at out')):
                if re.search(r'\b%s\b' % run, text):
                    found[kind].append(where)
            if len(params) > 6:
                found['5 more than six parameters'].append(f'{where} ({len(params)})')
            for c in clauses:
                for fact in c.split(' × '):
                    if len(fact) > 12:
                        facts[fact.strip('() ')].append(where)
            if inner.count('\n') > 0:
                bodies[normal(inner)].append(where)
    for alike in bodies.values():
        if len(alike) > 1:
            found['2 twins'] += alike
    for fact, wheres in facts.items():
        if len(wheres) > 2:
            found['5 facts in three contracts'].append(f'{len(wheres)} times: {fact}')
    for path in sorted(top.glob('crates/*/proofs/**/Answers.antt')):
        for n, line in enumerate(path.read_text().split('\n'), 1):
            if re.match(r'(abbrev )?pub [\w+-]+ : goal\.', line):
                found['8 answers'].append(f'{path.relative_to(top / "crates")}:{n}: {line}')
    return found


def main():
    args = sys.argv[1:]
    top = pathlib.Path(__file__).resolve().parent.parent
    if '--at' in args:
        at = args.index('--at')
        top = pathlib.Path(args[at + 1])
        del args[at:at + 2]
    found = places(top)
    for kind in sorted(found):
        if not args:
            print(f'{len(found[kind]):6}  {kind}')
        elif any(kind.startswith(a) for a in args):
            print(kind)
            print('\n'.join('    ' + w for w in found[kind]))


main()
