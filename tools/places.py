#!/usr/bin/env python3
"""Counts the places of docs/DESIGN-PASS.md's points in crates/*/src; with -v lists them.

usage: tools/places.py [-v] [POINT...]    from the top of the repository
"""
import collections, glob, re, sys

HEAD = re.compile(r'^([ \t]*)(?:#\[.*\]\s*)?(?:pub(?:\(\w+\))? )?(?:const )?(?:extern "C" )?fn (\w+)', re.M)


def sources():
    for path in sorted(glob.glob('crates/*/src/**/*.rt', recursive=True)):
        yield path, open(path, encoding='utf-8').read()


class Function:
    """A function's name, signature, clauses and body."""

    def __init__(self, path, text, match):
        self.path, self.name = path, match.group(2)
        self.line = text.count('\n', 0, match.start(2)) + 1
        close = re.compile(r'^' + match.group(1) + r'\}', re.M)
        end = close.search(text, match.end())
        self.text = text[match.start():end.end() if end else len(text)].strip('\n')
        lines = self.text.split('\n')
        brace = next((i for i, l in enumerate(lines) if l.strip() == '{' or l.rstrip().endswith(' {')), len(lines))
        self.head = '\n'.join(lines[:brace + 1])
        self.body = '\n'.join(l for l in lines[brace:] if not l.strip().startswith('//'))
        self.clauses = [l.strip() for l in lines[:brace + 1] if re.match(r'\s*(requires|ensures)\b', l)]
        self.signature = ' '.join(l.strip() for l in lines[:brace + 1] if not re.match(r'\s*(requires|ensures|\{)', l))

    def where(self):
        return f'{self.path}:{self.line} {self.name}'


def functions():
    for path, text in sources():
        for match in HEAD.finditer(text):
            yield Function(path, text, match)


def lines(pattern):
    for path, text in sources():
        for i, line in enumerate(text.split('\n'), 1):
            if re.search(pattern, line) and not line.strip().startswith('//'):
                yield f'{path}:{i} {line.strip()}'


def answers_number(f):
    return '-> u32' in f.signature and any(
        re.search(r'\bresult\b', c) and re.search(r'[Rr]efus|Answered|reasons|Pushes|Merges|Transforms|Finds|FromPoints|Writes|Reads|'
                  r'Builds|Accumulated|Linearize|Multiplied|Told|Fits|_shape', c) for c in f.clauses)


def point_1():
    yield 'own enums of the shape of Option or Result', [
        x for x in lines(r'^\s*(pub )?enum \w+') if not re.search(r'enum (Refusal|Call|UnknownCall)\b', x)]
    yield 'functions that answer a reason as a number', [f.where() for f in functions() if answers_number(f)]
    yield 'tests of such a number for 0', list(lines(r'if (?!doubt)\w+ != 0 \{'))
    yield 'a number of a reason, or of a kind, in a field or a match', list(
        lines(r'^\s*(pub )?(refusal|answer): u32|^\s*[0-9]+ => (?!row_|add_|write)\w+\('))


def shape(f):
    """The body with its numbers, its calls and its array sizes left open."""
    text = re.sub(r'//.*', '', f.body)
    text = re.sub(r'\b\d[\d_.x a-fA-F]*\b', '0', text)
    text = re.sub(r'\b[a-z_][a-z_0-9]*(?=::<|\()', 'f', text)
    return re.sub(r'\s+', ' ', text)


def point_2():
    groups = collections.defaultdict(list)
    for f in functions():
        if '/maghnelt/' in f.path or '_c/' in f.path or f.body.count('\n') < 3:
            continue
        groups[shape(f)].append(f)
    yield 'functions alike but for numbers and callees', [
        f.where() for g in groups.values() if len(g) > 1 for f in g]
    named = collections.defaultdict(list)
    for f in functions():
        stem = re.sub(r'_?(one|two|three|four|five|six|seven|nine|other|3|9)$', '', re.sub(
            r'_(by|of)_(one|two|three|four|five|six|seven)$', '', f.name))
        if stem != f.name and '_c/' not in f.path:
            named[f.path.split('/')[1], stem].append(f)
    yield 'functions that a number in the name tells apart', [
        f.where() for g in named.values() if len(g) > 1 for f in g]


def point_3():
    yield 'while loops', list(lines(r'^\s*while '))
    yield 'counters stepped by hand', list(lines(r'^\s*\w+ [+-]= 1;'))


def point_4():
    yield 'functions that only widen a number', [f.where() for f in functions() if re.search(r'\{\n\s*\w+ as \w+\n\}$', f.text)]
    yield 'equality, and patterns of floats, by hand', [
        f.where() for f in functions() if re.match(r'(same_|bits_of|eq_|equal)', f.name)]


def conjuncts(f):
    for c in f.clauses:
        inner = c[c.find('{') + 1:c.rfind('}')]
        for part in re.split(r' × ', inner):
            yield part.strip().strip('()')


def point_5():
    count = collections.defaultdict(set)
    for f in functions():
        if '/maghnelt' in f.path:
            continue
        for part in conjuncts(f):
            if re.match(r'length |\w+ (≤|<) ', part):
                count[part].add(f.where())
    yield 'facts in the contracts of three or more functions', [
        f'{len(w)} times: {p}' for p, w in sorted(count.items(), key=lambda x: -len(x[1])) if len(w) >= 3]
    pairs = collections.Counter()
    for f in functions():
        if '/maghnelt' in f.path or '/replay' in f.path or '/exported' in f.path:
            continue
        names = re.findall(r'(\w+): (?:&|\[|\w)', f.signature[f.signature.find('('):])
        for a, b in zip(names, names[1:]):
            pairs[a, b] += 1
    yield 'neighbouring parameters of five or more functions', [
        f'{n} times: {a}, {b}' for (a, b), n in pairs.most_common() if n >= 5]


def point_6():
    yield 'fixed buffers beside a length', [
        f.where() for f in functions()
        if re.search(r'&(mut )?\[\w+; \w+\]', f.signature) and re.search(r'\b(many|size|count|lanes|width|n): usize', f.signature)]


def point_7():
    yield 'arms that choose a step by a number', list(lines(r'^\s*[0-9]+ => \w+(::<[0-9]+>)?\('))


def point_8():
    files = sorted(glob.glob('crates/*/proofs/**/Answers.antt', recursive=True))
    texts = [open(p, encoding='utf-8').read() for p in files]
    yield 'files of answers', files
    yield 'answers', [l for t in texts for l in re.findall(r'^pub \S+ : goal\.\S+', t, re.M)]
    yield 'lines of proofs', [l for p in glob.glob('crates/*/proofs/**/*.antt', recursive=True)
                              for l in open(p, encoding='utf-8').read().splitlines()]


def main():
    args = sys.argv[1:]
    verbose = '-v' in args
    for point in [a for a in args if a != '-v'] or '12345678':
        for what, found in globals()['point_' + point]():
            print(f'{point}  {what}: {len(found)}')
            if verbose and what != 'lines of proofs':
                print(*('       ' + x for x in found), sep='\n')


main()
