#!/usr/bin/env python3
"""Counts, in the crates' src/, places of the older forms that docs/DESIGN-PASS.md lists, a line for each point and crate.

    tools/forms.py [FOLDER]     FOLDER holds crates/, by default the repository that this file is in

What only a reader can tell (twins that differ in more than a name, tests written by hand) is listed in the page beside these counts."""
import collections
import pathlib
import re
import sys

root = pathlib.Path(sys.argv[1] if len(sys.argv) > 1 else pathlib.Path(__file__).parent.parent)
FUNCTION = re.compile(r'^\s*(?:pub )?(?:extern "C" )?fn (\w+)(?:<[^>]*>)?\((.*?)\)(?: -> [^{\n]*)?\n?(.*?)^\s*\{', re.M | re.S)


def sources():
    for path in sorted(root.glob('crates/*/src/**/*.rt')):
        yield path.relative_to(root / 'crates').parts[0], path, path.read_text()


def code(text):
    return '\n'.join(line for line in text.split('\n') if not line.lstrip().startswith('//'))


def count(pattern):
    """Matches of a pattern in code lines, by crate."""
    found = collections.Counter()
    for crate, _, text in sources():
        found[crate] += len(re.findall(pattern, code(text), re.M))
    return +found


def fields(pattern):
    """Fields of structs that match."""
    found = collections.Counter()
    for crate, _, text in sources():
        for body in re.findall(r'struct \w+(?:<[^>]*>)? \{(.*?)\n\}', code(text), re.S):
            found[crate] += len(re.findall(pattern, body))
    return +found


def functions():
    for crate, _, text in sources():
        for name, parameters, clauses in FUNCTION.findall(code(text)):
            names = [p.split(':')[0].strip() for p in parameters.split(',') if ':' in p]
            yield crate, name, names, ' '.join(clauses.split())


def doubled():
    """Names of functions that stand in two crates or files, and how often."""
    names = collections.Counter(name for _, name, _, _ in functions())
    return {name: n for name, n in names.items() if n > 1 and name not in ('main', 'decode', 'run')}


def long_lists(limit):
    found = collections.Counter()
    for crate, _, names, _ in functions():
        found[crate] += len(names) >= limit
    return +found


def repeated(limit):
    """Facts that a requires of so many functions of one crate states word by word (with its own name for it left out)."""
    facts = collections.defaultdict(set)
    for crate, name, _, clauses in functions():
        for fact in re.findall(r'requires (?:\w+ )?\{ (.*?) \}', clauses):
            facts[crate, fact].add(name)
    found = collections.Counter()
    for (crate, _), names in facts.items():
        if len(names) >= limit:
            found[crate] += len(names)
    return found


def show(title, found):
    total = sum(found.values())
    print(f'{title}: {total}' + (' (' + ', '.join(f'{name} {n}' for name, n in sorted(found.items())) + ')' if found else ''))


show('1  variants of own enums shaped as Option or Result, named', count(r'\b(?:Natural|Integer|Reply|Tail|Ending|Input)::(?:Nothing|Is|Done|Refused|Inputs|Known|Unknown|Whole|Failed)\b|^    (?:Nothing|Unknown|Done),$'))
show('1  bool fields of structs', fields(r'\w+: bool,'))
show('1  numbers for kinds', count(r'^pub const [A-Z_0-9]+: u\d+ = \d+;'))
show('2  functions whose name another function has', doubled())
show('2  functions that only give an array of zeros', count(r'^\s*\[(?:0(?:u8|u32|i16|i32)?|false); \d+\]$'))
show('3  while loops', count(r'^\s*while '))
show('4  comparisons, conversions and printing by hand', count(r'^(?:pub )?fn (?:same|size|larger|both|number_of_refusal|place_of_refusal|end_of|decimal|with_digits|with_byte|is_small|narrow|write|signed)\b'))
show('5  functions of eight parameters or more', long_lists(8))
show('5  functions with a fact that two others of the crate require too', repeated(3))
show('6  lengths beside buffers', count(r'^    (?:pub )?len: usize,$|bytes: \[u8; \d+\], len: usize'))
show('7  chains of ifs that choose a step', count(r'^pub fn step_\w+'))
show('x  tests as chains of returns', count(r'^\s*return (?:false|true);$'))
walks = collections.Counter(path.relative_to(root / 'crates').parts[0] for path in root.glob('crates/*/proofs/**/Proof.antt'))
show('8  proofs that walk the code (Proof.antt)', walks)
