#!/usr/bin/env python3
"""Spells this repository's own definitions and lemmas as the toolchain's library spells its own: words in snake case.

usage: tools/respell.py [--check]     once, at the top of the repository, right after port.py

A name that an .antt file below crates/ declares turns wherever a definition, a proof, a clause, a `ghost use` item or the code span of a comment or a
page has it: `checkFit` is `check_fit`, `abs-mul` is `abs_mul`. Types, modules, operators, functions of src/ and names of the toolchain's libraries stay,
whether a file imports them or writes their path out, as `native.Mathlib.Nat.mod-lt`. --check prints names that would fall together with another name of
their file, and writes nothing; those that stand only as a step of a path (`proofs.sizes.check_fit.Tie`) are no clash. RENAMED is for the others.
"""
import glob
import re
import sys

NAME = r'[^\s(){}.;,@"«»:]+'
WORD = re.compile(r'[^\s(){}.;,@"«»`]+')
DECLARED = re.compile(rf'(?m)^ *(?:(?:pub|abbrev|unfoldable|opaque) )*({NAME}(?: {NAME})*)(?: \{{[^{{}}\n]*\}}| \([^()\n]*\))* :(?= |$)')
IMPORT = re.compile(r'(?m)^ *(?:pub )?(?:ghost )?use ([^\s;{]+?)\.?\{([^}]*)\}')
IMPORTED = re.compile(r'(?m)^ *(?:pub )?use ([^\s;{]+)')
QUOTED_OR_COMMENT = re.compile(r'"(?:[^"\\\n]|\\.)*"|(?:^|(?<=[\s(){};,]))--[^\n]*', re.M)
CODE_SPAN = re.compile(r'`[^`\n]*`')
CLAUSE = re.compile(r'ghost use [^;]*;|\b(?:requires|ensures)\*?(?: \w+)? \{[^}]*(?:\{[^}]*\}[^}]*)*\}|\bghost \w+: \{[^}]*\}')

# What would fall together with another name of its file, and what it is called instead.
RENAMED = {
    'mid-of': 'mid_rounded',
    'rank-of': 'corner_rank',
    'mid_at': 'mid_at_is',
    'rad-at': 'rad_at_is',
    'in-slice': 'in_slice_is',
    'job-product': 'job_product_is',
    'product-text': 'product_text_is',
    'minus-size': 'minus_size_is',
    'is-units': 'units_are',
    'greatest-term': 'greatest_term_is',
    'least-term': 'least_term_is',
    'by-sign': 'by_sign_is',
}
# What port.py took for a name of the library, and what the check makes.
MISTAKEN = {'Near-again': 'near_again', 'Near-of': 'near_of'}
MADE = {'same-length'}

CRATES = {path.split('/')[1] for path in glob.glob('crates/*/src')}


def read(path):
    with open(path, encoding='utf-8') as file:
        return file.read()


def spelled(name):
    if name in RENAMED:
        return RENAMED[name]
    if '◌' in name or re.match('[A-Z]', name) or name.startswith('-') or name.endswith('-') or name.startswith('tie'):
        return name
    words = re.sub(r'(?<=[a-z0-9₀-₉])([A-Z])(?=[a-z0-9₀-₉]|$|-|_)', lambda m: '_' + m[1].lower(), name)
    return re.sub(r'(?<=[^-])-(?=[^-])', '_', words)


def outside(pattern, text, turn):
    """The text with what stands outside the pattern's matches turned."""
    out, at = [], 0
    for m in pattern.finditer(text):
        out += [turn(text[at:m.start()]), m[0]]
        at = m.end()
    return ''.join(out) + turn(text[at:])


def is_ours(path):
    own = re.match(r'Rattle\.(\w+)\.', path + '.')
    return bool(own and own[1] in CRATES)


def imported(text):
    """The names that a file takes from libraries of the toolchain, as they are called in it."""
    return {item.split()[-1] for path, items in IMPORT.findall(text) if not is_ours(path) for item in items.split(',') if item.split()}


def library_paths(texts):
    """Matches what is a library's by its path: an import's items, also under another name (`{a as b}`), and a name behind a path."""
    roots = {path.split('.')[0] for text in texts for path in IMPORTED.findall(text) if not is_ours(path)} - {'Rattle', 'crate'}
    start = '|'.join([re.escape(root) + r'\.' for root in sorted(roots)] + [rf'Rattle\.(?!(?:{"|".join(sorted(CRATES))})\.)'])
    return re.compile(rf'(?<![^\s(){{}};,@"«»`])(?:{start})(?:{NAME}\.)*(?:{NAME}|\{{[^}}]*\}})')


class Respelling:
    def __init__(self, texts):
        self.library = library_paths(texts.values())
        declared = {word for text in texts.values() for m in DECLARED.finditer(QUOTED_OR_COMMENT.sub(' ', text)) for word in m[1].split()}
        self.table = {name: spelled(name) for name in declared - MADE if spelled(name) != name} | MISTAKEN
        self.declared = declared | set(self.table.values())
        self.count = 0

    def turn(self, text, stay=frozenset()):
        def word(m):
            new = m[0] if m[0] in stay else self.table.get(m[0], m[0])
            self.count += new != m[0]
            return new

        return outside(self.library, text, lambda ours: WORD.sub(word, ours))

    def page(self, text):
        """A page of documents, whose code spans also have names that port.py turned everywhere else."""
        def word(m):
            new = self.table.get(m[0]) or (spelled(m[0]) if spelled(m[0]) in self.declared and re.search('[a-z][A-Z]', m[0]) else m[0])
            self.count += new != m[0]
            return new

        return CODE_SPAN.sub(lambda m: '`' + WORD.sub(word, m[0][1:-1]) + '`', text)

    def spans(self, text, stay=frozenset()):
        return CODE_SPAN.sub(lambda m: '`' + self.turn(m[0][1:-1], stay) + '`', text)

    def clashes(self, text):
        words = set(WORD.findall(QUOTED_OR_COMMENT.sub(' ', text)))
        stay = imported(text)
        ours = words & set(self.table) - stay
        for word in sorted(ours):
            for rival in words - {word}:
                if (self.table[rival] if rival in ours else rival) == self.table[word]:
                    yield f'{word} would be {self.table[word]}, beside {rival}'


def main():
    definitions = sorted(glob.glob('crates/*/specs/**/*.antt', recursive=True) + glob.glob('crates/*/proofs/**/*.antt', recursive=True))
    texts = {path: read(path) for path in definitions}
    names = Respelling(texts)
    if '--check' in sys.argv:
        for path, text in texts.items():
            for clash in names.clashes(text):
                print(f'{path}: {clash}')
        return
    changed = {}
    for path, text in texts.items():
        stay = imported(text)
        code = outside(QUOTED_OR_COMMENT, text, lambda ours: names.turn(ours, stay))
        changed[path] = re.sub(r'--[^\n]*', lambda m: names.spans(m[0], stay), code)
    for path in glob.glob('crates/*/src/**/*.rt', recursive=True):
        text = read(path)
        stay = imported(text)
        clauses = CLAUSE.sub(lambda m: names.turn(m[0], stay), text)
        changed[path] = re.sub(r'//[^\n]*', lambda m: names.spans(m[0], stay), clauses)
    for path in glob.glob('*.md') + glob.glob('docs/*.md'):
        changed[path] = names.page(read(path))
    for path, text in changed.items():
        if text != read(path):
            with open(path, 'w', encoding='utf-8') as file:
                file.write(text)
    print(f'{names.count} words turned, {len(names.table)} names')


main()
