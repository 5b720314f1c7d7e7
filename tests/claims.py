#!/usr/bin/env python3
"""Check that docs/CLAIMS.md cites only what exists, and leaves no public function and no precondition out.

A citation stands in backquotes: `CRATE/FILE` or `CRATE/FILE:NAME`, where FILE is a path below crates/CRATE that begins
with src/, specs/, proofs/ or must-fail/, and NAME is declared in that file. A citation that begins with docs/, tests/,
oracle/, host/ or include/ is a path of the repository, with or without a NAME that its text contains.
Every function that a crate shows to other crates must be cited by name: each `pub fn` of its lib.rt and of the modules
that lib.rt declares `pub mod`, each that these name in a `pub use`, each `pub extern "C" fn`, and the public methods of
the types and traits that it shows likewise; and each states what it returns.
The tables of the section CALLS have a row for each public call, with two must-fail edits at least; every function of another crate that
the crate `grain` calls has one. The section NEEDS lists the functions with a `requires`, a row for each crate: exactly
those that have one. None of them is a public call, stands in `grain`, or is a method of a type that a crate shows.
A must-fail edit's name begins with what it changes: `code_`, `promise_` (a contract) or `definition_` (a text in specs/).
Each text that it changes stands in its file once.
"""
import pathlib
import re
import sys

CITATION = re.compile(r'`([A-Za-z0-9_.\-/]+/[A-Za-z0-9_.\-/]+)(?::([^`\s]+))?`')
PARTS = ('src', 'specs', 'proofs', 'must-fail')
OTHER = ('docs', 'tests', 'oracle', 'host', 'include')
# What may stand before `fn` on its line, and the name.
HEAD = r'((?:const |unsafe )*(?:extern "C" )?)fn (\w+)'
PUBLIC = re.compile(rf'^\s*(?:#\[.*\] )?pub {HEAD}', re.M)
FUNCTION = re.compile(rf'^\s*(?:#\[.*\] )?(?:pub(?:\(\w+\))? )?{HEAD}', re.M)
METHODS = re.compile(r'^impl(?:<[^{\n]*?>)? (?:[^{\n]* for )?(?:\w+::)*(\w+)(?:[^\n]*{}$|.*?^})', re.M | re.S)
TRAITS = re.compile(r'^pub trait (\w+)(?:[^\n]*{}$|.*?^})', re.M | re.S)
# A clause of a contract, up to its text; or where a function's body begins, or its declaration ends.
CLAUSE = re.compile(r'\b(requires|ensures|ghost)\*?(?: \w+)? \{|\{|;$', re.M)
CALLS = '## Two wrong programs for each public call'
NEEDS = '## Functions with a `requires`'


def declares(path, text, name):
    """Whether a file of Rattle (.rt) or antt declares the name."""
    word = re.escape(name)
    if path.suffix == '.rt':
        return re.search(rf'\b(?:fn|struct|enum|trait|type|const)\s+{word}\b', text) is not None
    head = rf'^\s*(?:(?:abbrev|unfoldable|opaque|pub|record|data)\s+)*{word}(?:\s+\{{[^}}]*\}}|\s+\([^)]*\))*\s*:'
    return re.search(head, text, re.M) is not None


def named(tree):
    """The names that the path or the grouped paths of a `use` end in."""
    return re.findall(r'(\w+)(?!\w|\s*::)', re.sub(r'\bas\s+\w+', '', tree))


class Crate:
    """The folder src/ of a crate, and what of it other crates see."""

    def __init__(self, source):
        self.name = source.parent.name
        files = {path: path.read_text() for path in sorted(source.rglob('*.rt'))}
        root = files.get(source / 'lib.rt', '')
        # What a `pub use` takes whole is shown as a `pub mod` is.
        modules = set(re.findall(r'^pub mod (\w+);', root, re.M) + re.findall(r'^pub use [^;]*\b(\w+)::\*', root, re.M))
        self.texts = list(files.values())
        # The files of which every `pub` name is shown, and the names of the others that are.
        self.whole = [text for path, text in files.items() if text is root or path.stem in modules]
        self.used = {name for text in self.whole for tree in re.findall(r'^pub use ([^;]+);', text, re.M) for name in named(tree)}
        types = self.used.union(*(re.findall(r'^pub (?:struct|enum|trait) (\w+)', text, re.M) for text in self.whole))
        # The `impl` blocks of the types that are shown, and the traits that are.
        self.methods = [block.group() for text in self.texts for block in METHODS.finditer(text) if block.group(1) in types]
        self.traits = [block.group() for text in self.texts for block in TRAITS.finditer(text) if block.group(1) in types]

    def public(self):
        """The functions that are shown."""
        for text in self.texts:
            for words, name in PUBLIC.findall(METHODS.sub('', text)):
                if text in self.whole or 'extern' in words or name in self.used:
                    yield name
        for block in self.methods:
            yield from (name for _, name in PUBLIC.findall(block))
        for block in self.traits:
            yield from (name for _, name in FUNCTION.findall(block))


def clauses(text):
    """Each clause of each function of a text: the function's name, the clause's word, and where it begins and ends."""
    text = re.sub(r'//.*', lambda comment: ' ' * len(comment.group()), text)
    for function in FUNCTION.finditer(text):
        at = function.end()
        while (clause := CLAUSE.search(text, at)) and clause.group(1):
            depth, at = 1, clause.end()
            while depth and at < len(text):
                depth += {'{': 1, '}': -1}.get(text[at], 0)
                at += 1
            yield function.group(2), clause.group(1), clause.start(), at


def having(word, texts):
    """The functions of these texts that have a `requires`, or an `ensures`."""
    return [name for text in texts for name, found, _, _ in clauses(text) if found == word]


def rows(text, heading):
    """The cells of each row of the tables in a section, below each table's head."""
    lines = text.partition(heading + '\n')[2].partition('\n## ')[0].split('\n')
    found = [line for line, after in zip(lines, lines[1:] + ['']) if line.startswith('| ') and not after.startswith('|---')]
    return [[cell.strip() for cell in line.strip('|').split('|')] for line in found]


def called(text, names):
    """The crate and the name of each function that a text calls of these crates, by its path or by a name that it imports."""
    imported = {name: crate for crate, tree in re.findall(r'^use (\w+)::([^;]+);', text, re.M) for name in named(tree)}
    calls = {(crate, name) for crate, name in re.findall(r'\b(\w+)::(?:\w+::)*(\w+)\(', text)}
    # A function of an imported type, and an imported function.
    calls |= {(imported[above], name) for above, name in calls if above in imported}
    calls |= {(imported[name], name) for name in re.findall(r'(?<![\w:.])(\w+)\(', text) if name in imported}
    # (a variant begins with a capital)
    return {(crate, name) for crate, name in calls if crate in names and name[0].islower()}


def preconditions(crates, text):
    """What is wrong with the sections CALLS and NEEDS, a line each."""
    needs = {(crate.name, name) for crate in crates for name in having('requires', crate.texts)}
    listed = {(row[0].strip('`'), name) for row in rows(text, NEEDS) for name in re.findall(r'`(\w+)`', row[1])}
    for crate, name in sorted(needs - listed):
        yield f'docs/CLAIMS.md: {name} of {crate} has a `requires`, and is not listed'
    for crate, name in sorted(listed - needs):
        yield f'docs/CLAIMS.md: {name} of {crate} is listed, and has no `requires`'
    calls = set()
    for row in rows(text, CALLS):
        made = [(path.partition('/')[0], name) for _, path, name in citations(row[0])]
        calls.update(made)
        edits = {path for _, path, _ in citations(' '.join(row[1:])) if path.endswith('.edit')}
        if not made or len(edits) < 2:
            yield f'docs/CLAIMS.md: fewer than two edits, or no call: {row[0]}'
    names = {crate.name for crate in crates}
    for grain in (text for crate in crates if crate.name == 'grain' for text in crate.texts):
        for crate, name in sorted(called(grain, names) - calls):
            yield f'docs/CLAIMS.md: no row for the call {name} of {crate}'
    for crate, name in sorted(needs):
        if crate == 'grain' or (crate, name) in calls:
            yield f'{name} of {crate} is a public call with a `requires`'
    for crate in crates:
        for name in having('requires', crate.methods + crate.traits):
            yield f'{name} of {crate.name} is a method of a public type with a `requires`'


def kind(part, text, at, end):
    """What an edit changes that replaces this stretch of a file in this part of a crate."""
    if part != 'src':
        return 'definition' if part == 'specs' else 'proof'
    contract = any(start < end and at < stop for _, word, start, stop in clauses(text) if word != 'ghost')
    return 'promise' if contract else 'code'


def changes(root):
    """What is wrong with must-fail edits, a line each."""
    for edit in sorted(root.glob('crates/*/must-fail/*.edit')):
        path, old, texts, kinds, wrong = None, None, {}, set(), False
        for line in edit.read_text().split('\n'):
            if line.startswith('file: '):
                path = line.removeprefix('file: ').strip()
                file = edit.parent.parent / path
                texts.setdefault(path, file.read_text() if file.is_file() else '')
            elif line.startswith('old: '):
                old = line.removeprefix('old: ')
            elif line.startswith('new:') and path and old:
                count = texts[path].count(old)
                if count != 1:
                    wrong = True
                    yield f'{edit.relative_to(root)}: its text is in {path} {count} times, and not once: {old.strip()}'
                    continue
                at = texts[path].index(old)
                kinds.add(kind(path.partition('/')[0], texts[path], at, at + len(old)))
                texts[path] = texts[path].replace(old, line.removeprefix('new:').removeprefix(' '))
        if not wrong and (len(kinds) != 1 or not edit.name.startswith(f'{min(kinds)}_')):
            yield f'{edit.relative_to(root)}: the name does not begin with what it changes, {" and ".join(sorted(kinds)) or "nothing"}'


def citations(text):
    for line, content in enumerate(text.split('\n'), 1):
        for match in CITATION.finditer(content):
            yield line, match.group(1), match.group(2)


def problems(root):
    """What is wrong, a line each."""
    root = pathlib.Path(root)
    text = (root / 'docs/CLAIMS.md').read_text()
    found, cited, count = [], set(), 0
    for line, path, name in citations(text):
        crate, _, rest = path.partition('/')
        if crate in OTHER:
            target = root / path
        elif rest.split('/')[0] in PARTS:
            target = root / 'crates' / path
            cited.add((crate, name))
        else:
            continue
        count += 1
        if not target.is_file():
            found.append(f'docs/CLAIMS.md:{line}: there is no file {path}')
        elif name and crate in OTHER and name not in target.read_text():
            found.append(f'docs/CLAIMS.md:{line}: {path} does not contain {name}')
        elif name and crate not in OTHER and not declares(target, target.read_text(), name):
            found.append(f'docs/CLAIMS.md:{line}: {path} does not declare {name}')
    crates = [Crate(source) for source in sorted(root.glob('crates/*/src'))]
    for crate in crates:
        stated = set(having('ensures', crate.texts))
        for name in crate.public():
            if name not in stated:
                found.append(f'{name}, a public function of {crate.name}, does not state what it returns')
            if (crate.name, name) not in cited:
                found.append(f'docs/CLAIMS.md: no row cites {name}, a public function of {crate.name}')
    if count == 0:
        found.append('docs/CLAIMS.md: no citation found')
    found.extend(preconditions(crates, text))
    found.extend(changes(root))
    return found, count


def main():
    found, count = problems(sys.argv[1] if len(sys.argv) > 1 else pathlib.Path(__file__).resolve().parent.parent)
    for line in found:
        print(line)
    if found:
        sys.exit(1)
    print(f'{count} citations, each of something that exists')


if __name__ == '__main__':
    main()
