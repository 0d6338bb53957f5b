#!/usr/bin/env python3
"""The places of the points of docs/DESIGN-PASS.md in the code of a tree.

    python3 tools/places.py [-l] [TREE]

Prints how many there are for each point, and with -l where they stand. TREE is a checkout (default: this one); `git worktree add DIR COMMIT` makes one of a commit.
"""
import glob
import os
import re
import sys

LONG = 6


def functions(text):
    """Each function's name, parameters, result and body, with its line."""
    for m in re.finditer(r'^ *(?:pub )?(?:extern "C" )?fn (\w+)(?:<[^(]*>)?\(', text, re.M):
        depth, i = 1, m.end()
        while depth:
            depth += {'(': 1, ')': -1}.get(text[i], 0)
            i += 1
        parameters = [p.strip() for p in text[m.end():i - 1].split(',\n' if '\n' in text[m.end():i - 1] else ', ') if p.strip()]
        head = text[i:text.index('\n{', i)] if '\n{' in text[i:] else ''
        rest = text[i:]
        brace = re.search(r'(?:^|\s)\{$', rest, re.M)
        result = re.match(r' -> ([^\n{]+)', rest)
        yield m.group(1), parameters, result.group(1).strip() if result else '', text.count('\n', 0, m.start()) + 1, brace and i + brace.end()


def block(text, start):
    depth, i = 1, start
    while depth and i < len(text):
        depth += {'{': 1, '}': -1}.get(text[i], 0)
        i += 1
    return text[start:i]


def places(tree):
    found = {k: [] for k in ('1 enums of the shape of Option or Result', '1 numbers for kinds or refusals', '2 twins', '3 loops that count by hand', '3 other loops', '4 by hand',
                             '5 six parameters or more', '5 facts in three contracts or more', '7 steps by number', '8 answers, lines')}
    bodies, facts = {}, {}
    for path in sorted(glob.glob(os.path.join(tree, 'crates/*/src/**/*.rt'), recursive=True)):
        text = open(path).read()
        short = os.path.relpath(path, os.path.join(tree, 'crates'))
        line = lambda i: f'{short}:{text.count(chr(10), 0, i) + 1}'
        for m in re.finditer(r'^(?:pub )?enum (\w+) \{', text, re.M):
            variants = re.findall(r'^    (\w+)', block(text, m.end()), re.M)
            if len(variants) <= 3 and (set(variants) & {'None', 'Nowhere', 'Other', 'Nameless', 'No', 'Refused', 'Fault', 'Stopped', 'Full'} or 'Same' in variants):
                found['1 enums of the shape of Option or Result'].append(f'{line(m.start())} {m.group(1)}')
        for m in re.finditer(r'^(?:pub )?const (\w+): u(?:8|64) = \d+;', text, re.M):
            if not re.search(r'LIMIT|TURNS|TRIALS|LABELS|LENGTH|MARK|WORDS|FIRST|LAST', m.group(1)):
                found['1 numbers for kinds or refusals'].append(f'{line(m.start())} {m.group(1)}')
        for name, parameters, result, at, body in functions(text):
            comment = ''
            lines = text.split('\n')
            k = at - 2
            while k >= 0 and lines[k].lstrip().startswith(('//', '#[')):
                comment = lines[k] + ' ' + comment
                k -= 1
            if re.match(r'u\d+|usize', result) and re.search(r"; 0 where|[Ee]lse 0\b|; 0 if none|one over the|p \+ [12]|more than it has room|more than the row has room|answer is as (unite|map|runs|making|insert|operations|advance)|1 if the other", comment):
                found['1 numbers for kinds or refusals'].append(f'{short}:{at} {name}')
            if len(parameters) >= LONG:
                found['5 six parameters or more'].append(f'{short}:{at} {name} ({len(parameters)})')
            if body:
                code = re.sub(r'\b(u8|u32|u64|usize)\b', 'T', re.sub(r'\s+', ' ', block(text, body)))
                if code.count(';') >= 2:
                    bodies.setdefault(re.sub(r'\b\d+\b|\b[A-Z][A-Z_]+\b|(?<=::)\w+', 'C', code), []).append(f'{short}:{at} {name}')
            if re.match(r'(greater|greatest|larger|lesser|less|less_one|one_less|one_more|is_same|is_record|has_counts|compare_words|compare_rows|are_zero\w*)$', name):
                found['4 by hand'].append(f'{short}:{at} {name}')
        for m in re.finditer(r'^ *(while|loop)\b(.*)\{$', text, re.M):
            body = block(text, m.end())
            counted = [v for v in re.findall(r'\b(\w+) [+-]= 1;', body) if re.search(rf'\b{v}\b', m.group(2))]
            found['3 loops that count by hand' if counted else '3 other loops'].append(line(m.start()))
        for m in re.finditer(r'^ *requires(?: \w+)? \{ (.*) \}$', text, re.M):
            for fact in re.split(r' × ', m.group(1)):
                facts.setdefault(fact.strip('() '), set()).add(line(m.start()))
    found['2 twins'] = [' = '.join(v) for v in bodies.values() if len(v) > 1]
    found['5 facts in three contracts or more'] = [f'{k} ({len(v)})' for k, v in sorted(facts.items(), key=lambda e: -len(e[1])) if len(v) >= 3]
    for path in sorted(glob.glob(os.path.join(tree, 'crates/*/proofs/**/Answers.antt'), recursive=True)):
        found['8 answers, lines'] += [os.path.relpath(path, os.path.join(tree, 'crates'))] * open(path).read().count('\n')
    return found


def main():
    given = [a for a in sys.argv[1:] if a != '-l']
    found = places(given[0] if given else os.path.join(os.path.dirname(os.path.abspath(__file__)), '..'))
    for point, where in found.items():
        print(f'{len(where):6} {point}')
        if '-l' in sys.argv and not point.startswith('8'):
            for w in where:
                print(f'         {w}')


main()
