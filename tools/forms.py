#!/usr/bin/env python3
"""Counts, in crates/*/src, the places of each point of docs/DESIGN-PASS.md; with -v it lists them, and with -p N those of point N alone.

It goes by text: a place that it lists may be as it should be (docs/DESIGN-PASS.md says which are, and why), and what no pattern
fits was looked for by reading."""
import collections
import glob
import os
import re
import sys

FIELDS = set('settings listed live endpoints owners attached domains regions logged lost reasons flags sources addresses'.split())


def files():
    for path in sorted(glob.glob('crates/*/src/**/*.rt', recursive=True)):
        yield path, open(path).read()


def uncommented(text):
    return re.sub(r'//[^\n]*', '', text)


FN = re.compile(r'\bfn (\w+)\s*(?:<[^(]*>)?\(([^)]*)\)(?: -> ([^\n{]+))?')


def functions():
    """(path, line, name, parameters, result, contract, body) of each function."""
    for path, text in files():
        text = uncommented(text)
        for m in FN.finditer(text):
            brace = re.compile(r'^\{$|\{\}$|^    \{$', re.M).search(text, m.end())
            start = brace.start() if brace else len(text)
            close = re.compile(r'^(    )?\}$', re.M).search(text, start)
            end = close.end() if close else len(text)
            parameters = [p.split(':')[0].replace('mut ', '').strip() for p in m.group(2).split(',') if p.strip()]
            yield (path, text.count('\n', 0, m.start()) + 1, m.group(1), parameters, (m.group(3) or '').strip(),
                   text[m.end():start], text[start:end])


def lines(pattern, where='.'):
    rx = re.compile(pattern)
    for path, text in files():
        if re.search(where, path):
            for n, line in enumerate(uncommented(text).split('\n'), 1):
                if rx.search(line) and 'ghost use' not in line and 'ensures' not in line and 'requires' not in line:
                    yield f'{path}:{n}: {line.strip()}'


def enums():
    for path, text in files():
        for m in re.finditer(r'\benum (\w+) \{(.*?)\n\}', uncommented(text), re.S):
            yield path, m.group(1), m.group(2)


def point1():
    for path, name, body in enums():
        variants = re.findall(r'^\s+(\w+)', body, re.M)
        if set(variants) & {'Refused', 'Nothing', 'Passed', 'Cut', 'Wrong', 'Blocked'}:
            yield f'{path}: enum {name} has a variant for a refusal or for nothing'
    for path, n, name, parameters, result, _, _ in functions():
        if result == 'u8' and re.search(r'status|^first_|^handle_', name):
            yield f'{path}:{n}: {name} gives a status as a number'
    yield from lines(r'status: u8')
    yield from lines(r'^pub const [A-Z]+: u8 =', 'rules/src/requests')
    for path, text in files():
        for m in re.finditer(r'\bstruct (\w+) \{(.*?)\n\}', uncommented(text), re.S):
            for f in re.findall(r'(\w+): bool', m.group(2)):
                yield f'{path}: struct {m.group(1)} has the flag {f} beside other fields'
    for path, n, name, parameters, result, contract, body in functions():
        if re.search(r'\bmatch \w+ \{\s*(0x|[A-Z]{3,}|\d)', body):
            yield f'{path}:{n}: {name} matches a number that says a kind'
        if any(p in ('flag', 'kind') for p in parameters):
            yield f'{path}:{n}: {name} takes a flag or a kind as a number'


def point2():
    groups = collections.defaultdict(list)
    for path, n, name, parameters, result, contract, body in functions():
        tokens = re.findall(r'[A-Za-z_]\w*|\d\w*|[^\s\w]', re.sub(r'ensures.*', '', body, flags=re.S) if body.startswith('ens') else body)
        keep = {'if', 'else', 'for', 'in', 'while', 'return', 'let', 'mut', 'match', 'as', 'true', 'false'}
        shape = ' '.join(t if t in keep or not re.match(r'\w', t) else ('N' if t[0].isdigit() else 'I') for t in tokens)
        if len(tokens) >= 12:
            groups[shape].append(f'{path}:{n}: {name}')
    for shape, places in groups.items():
        if len(places) > 1:
            yield ' | '.join(places)


def point3():
    yield from lines(r'\bfor \w+ in .*\.\.|\bwhile\b')


def point4():
    yield from lines(r'\bas (u8|u16|u32|u64|usize)\b')
    yield from lines(r'\.0 (==|!=) ')
    for path, n, name, *_ in functions():
        if name in ('wide', 'least', 'no_mapping', 'precedes', 'with', 'at_most_all', 'within'):
            yield f'{path}:{n}: {name} converts, compares or makes zeros by hand'
    yield from lines(r'^\s+key: 0,$|^\s+subtype: 0,$')


def point5():
    for path, n, name, parameters, result, contract, body in functions():
        together = FIELDS & set(parameters)
        if len(together) >= 3:
            yield f'{path}:{n}: {name} takes {len(together)} fields of the state one by one'
    for group in (('mask', 'input'), ('t', 'live'), ('out', 'at'), ('low', 'high', 'a', 'b'), ('first', 'last')):
        for path, n, name, parameters, *_ in functions():
            if set(group) <= set(parameters):
                yield f'{path}:{n}: {name} takes {", ".join(group)} beside one another'
    facts = collections.Counter()
    for path, n, name, parameters, result, contract, body in functions():
        for clause in re.findall(r'requires[^{]*\{ (.*) \}\s*\n', contract):
            for fact in set(re.split(r' × ', clause)):
                facts[fact.strip('() ')] += 1
    for fact, count in facts.items():
        if count >= 3:
            yield f'{count} functions require: {fact}'


def point6():
    for path, n, name, parameters, result, contract, body in functions():
        if re.search(r'\bwhile n > 1\b|find_mapping', name + body) and 'live' in parameters:
            yield f'{path}:{n}: {name} searches records by hand'
    yield from lines(r'^\s+(pub )?(bytes|shares|firsts|lasts|endpoints|owners|attached|domains|reasons|flags|sources|addresses): \[')
    for path, n, name, parameters, *_ in functions():
        if {'words', 'block', 'out', 'regions', 'endpoints'} & set(parameters) and {'n', 'held', 'count'} & set(parameters):
            yield f'{path}:{n}: {name} takes a length beside a slice'


def point7():
    for path, n, name, parameters, result, contract, body in functions():
        arms = re.findall(r'=> (?:\{\s*)?(\w+(?:::\w+)*)\(', body)
        if len(arms) >= 3:
            yield f'{path}:{n}: {name} switches between {len(arms)} calls'
    yield from lines(r'\binner: bool|\bdyn \b|: fn\(')


def point8():
    for path in sorted(glob.glob('crates/*/proofs/**/Proof.antt', recursive=True)):
        yield f'{path}: a proof that walks the code'
    seen = collections.defaultdict(set)
    for path in sorted(glob.glob('crates/*/proofs/**/Answers.antt', recursive=True)):
        for line in open(path):
            line = line.strip()
            if ' = ' in line and len(line) > 60:
                seen[line.split(' = ', 1)[1]].add(path)
    for text, paths in seen.items():
        if len(paths) >= 3:
            yield f'{len(paths)} files answer: {text[:90]}'


POINTS = [point1, point2, point3, point4, point5, point6, point7, point8]


def main():
    only = int(sys.argv[sys.argv.index('-p') + 1]) if '-p' in sys.argv else 0
    for k, point in enumerate(POINTS, 1):
        if only in (0, k):
            places = list(point())
            print(f'point {k}: {len(places)}')
            if only or '-v' in sys.argv:
                for place in places:
                    print('   ', place)


if __name__ == '__main__':
    os.chdir(os.path.join(os.path.dirname(os.path.abspath(__file__)), '..'))
    main()
