#!/usr/bin/env python3
"""Lists the places of an older form in crates/*/src, by the points of docs/DESIGN-PASS.md.

usage: python3 tools/places.py [--commit COMMIT] [--list] [POINT..]

Prints a count for each kind of place, and with --list each place behind it. With --commit it reads that commit, and else the checkout.
A place is where to look, and not a verdict: the page says of each whether it changed or why it stays. Points 8 and the proofs are
counted in lines of crates/*/proofs.
"""
import argparse
import re
import subprocess
import sys
from collections import defaultdict


def show(command):
    return subprocess.run(command, capture_output=True, text=True, check=True).stdout


def sources(commit, ending):
    """Path and text of each file of crates/*/src or proofs with that ending."""
    names = show(['git', 'ls-tree', '-r', '--name-only', commit, 'crates'] if commit else ['git', 'ls-files', 'crates'])
    for name in names.split('\n'):
        if re.match(ending, name):
            yield name, show(['git', 'show', f'{commit}:{name}']) if commit else open(name, encoding='utf8').read()


FUNCTION = re.compile(
    r'^(?P<indent> *)(?:#\[[^\n]*\n *)*(?:pub(?:\(crate\))? )?(?:extern "C" )?fn (?P<name>\w+)(?P<head>.*?)\n(?P=indent)\{\n(?P<body>.*?)\n(?P=indent)\}$',
    re.M | re.S)
WORD = re.compile(r'\b(?:0x[0-9a-f]+|\d\w*|[A-Za-z_]\w*)\b')
KEPT = set('fn let mut if else return while for in match as true false bool struct self'.split())
BY_HAND = re.compile(r'^(same|equal|copy|store|store_bytes|append|append_bytes|append_chars|clear|zeros|move_down|lesser|greater|greater_of|magnitude|'
                     r'pow2|signed_of|pattern_of|wide|no_larger|is_owner|byte_at|height_at|three_at|with_sign|natural_at|counter_at)$')


class Function:
    def __init__(self, path, text, match):
        self.where = f'{path}:{text.count(chr(10), 0, match.start()) + 1} {match["name"]}'
        self.name, self.head, self.body = match['name'], match['head'], match['body']
        clause = re.search(r'\n +(?:requires|ensures)', self.head)
        self.signature = self.head[:clause.start()] if clause else self.head
        self.result = (re.search(r'-> (.*)$', self.signature.strip(), re.S) or [None, ''])[1].strip()

    def skeleton(self):
        """The function without its names, numbers and types, so that twins have the same."""
        return WORD.sub(lambda m: m[0] if m[0] in KEPT else '_', self.body)

    def conjuncts(self):
        """The facts that it requires."""
        for clause in re.findall(r'requires(?: \w+)? \{ (.*?) \}', self.head):
            for fact in re.split(r' × ', clause):
                yield fact.strip('() ')

    def parameters(self):
        return [p.strip() for p in re.split(r',\s*(?![^<(]*[>)])', self.signature[self.signature.find('(') + 1:self.signature.rfind(')')]) if ':' in p]


def lines(files, pattern):
    for path, text in files:
        for number, line in enumerate(text.split('\n'), 1):
            if re.search(pattern, line):
                yield f'{path}:{number} {line.strip()}'


def groups(functions):
    """Functions of the same skeleton, of three lines and more."""
    found = defaultdict(list)
    for f in functions:
        if f.body.count('\n') >= 2:
            found[f.skeleton()].append(f.where)
    return ['  ~  '.join(g) for g in found.values() if len(g) > 1]


def repeated(functions, things, least):
    found = defaultdict(list)
    for f in functions:
        for thing in set(things(f)):
            found[thing].append(f.where)
    return [f'{len(w)} functions: {t}' for t, w in sorted(found.items(), key=lambda x: -len(x[1])) if len(w) >= least]


def together(f):
    """Each three parameters that follow one another."""
    p = [x.replace('mut ', '') for x in f.parameters()]
    return [', '.join(p[i:i + 3]) for i in range(len(p) - 2)]


def kinds(files, functions, proofs):
    yield '1', 'enums of the repository', list(lines(files, r'^(pub(\(crate\))? )?enum '))
    yield '1', 'fields that are a flag', list(lines(files, r'^ +(pub )?\w+: bool,$'))
    yield '1', 'fields that are a refusal number', list(lines(files, r'^ +(pub )?(\w+_)?(refusal|horizontal|vertical): u8,'))
    yield '1', 'functions that answer a refusal number', [
        f.where for f in functions if f.result == 'u8' and re.search(r'refusal|\b[A-Z]{3,}\b|::(check|decode|read|agrees|store|remove|rebuild|write)', f.body + f.name)]
    yield '1', 'constants that number kinds', list(lines(files, r'^pub const ([A-Z]+: u8|NO_TAG)'))
    yield '2', 'groups of functions that differ in names, types and numbers alone', groups(functions)
    yield '3', 'while', list(lines(files, r'^ *while '))
    yield '3', 'for over a range of numbers', list(lines(files, r'^ *for \w+ in [^{]*\.\.'))
    yield '4', 'equality, order, copying and conversion by hand', [f.where for f in functions if BY_HAND.match(f.name)]
    yield '4', 'tests that return false one by one', [f.where for f in functions if f.result == 'bool' and f.body.count('return false;') > 1]
    yield '5', 'facts that three and more functions require', repeated(functions, Function.conjuncts, 3)
    yield '5', 'three parameters that five and more functions have one behind the other', repeated(functions, together, 5)
    yield '6', 'fields that are a length beside a buffer', list(lines(files, r'^ +(pub )?(count|length): usize,$'))
    yield '6', 'functions with values and presence bytes side by side', [f.where for f in functions if 'values: &' in f.signature and 'present: &' in f.signature]
    yield '7', 'switches whose cases are calls', [f.where for f in functions if len(re.findall(r'=> [\w:]+\(', f.body)) > 2]
    yield '7', 'components picked by number', [f.where for f in functions if 'if component == ' in f.body]
    yield '8', 'lines of answers', [line for path, text in proofs if path.endswith('/Answers.antt') for line in text.split('\n') if line.strip()]
    yield '8', 'lines of invariants', [line for path, text in proofs if path.endswith('/Invariants.antt') for line in text.split('\n') if line.strip()]
    yield '8', 'lines of lemmas', [line for path, text in proofs if not re.search(r'/(Answers|Invariants|Lib)\.antt$', path) for line in text.split('\n') if line.strip()]


def main():
    parser = argparse.ArgumentParser(description=__doc__, formatter_class=argparse.RawDescriptionHelpFormatter)
    parser.add_argument('--commit')
    parser.add_argument('--list', action='store_true')
    parser.add_argument('points', nargs='*')
    asked = parser.parse_args()
    try:
        files = list(sources(asked.commit, r'crates/\w+/src/.*\.rt$'))
        proofs = list(sources(asked.commit, r'crates/\w+/proofs/.*\.antt$'))
    except (OSError, subprocess.CalledProcessError) as error:
        sys.exit(f'places: {error}')
    functions = [Function(path, text, m) for path, text in files for m in FUNCTION.finditer(text)]
    for point, kind, places in kinds(files, functions, proofs):
        if asked.points and point not in asked.points:
            continue
        print(f'{point}  {len(places):5}  {kind}')
        if asked.list and point != '8':
            for place in places:
                print(f'            {place}')


main()
