"""Are the names in the documents there? `python3 -m tests.documents`, from the repository's root.

README.md, docs/ and tests/README.md name files, functions, definitions, theorems, must-fail edits and groups of test cases. Each must exist
where the text says, and an edit is called one of a contract exactly if it is. Prints a line for each that does not, then how many names of
each sort were looked up; the status is 1 if one is missing, or if a sort has none, which would mean that the documents are not written as
this program reads them."""
import re
import sys
from collections import Counter
from pathlib import Path

# docs/PORT.md and docs/DESIGN-PASS.md lay what was before beside what is there
PAGES = [path for path in sorted(Path('docs').glob('*.md')) if path.name not in ('PORT.md', 'DESIGN-PASS.md')]
DOCUMENTS = [Path('README.md'), *PAGES, Path('tests/README.md')]
# the crates whose definitions and statements an auditor reads
STATEMENTS = ('model', 'why', 'nodes', 'choosing', 'text', 'edits', 'named_row')
# words that stand for any name
ANY = re.compile(r'\b(?:NAME|FUNCTION|File|crate/name|crates/crate)\b')

NAMES = r'((?:`[^`]+`(?:, | and )?)+)'
# `name`, `name` (File), (proofs/File), (`path`, or in `path`; and the fields that follow a colon
PLACED = re.compile(NAMES + r'(?: \(| in )(?:(proofs/)?([A-Z]\w+)|`([\w/]+\.(?:antt|rt|h))`)(?:\)(?:: ' + NAMES + ')?)?')
EDITS = re.compile(r'\bedits?( of a contract| of contracts)? ((?:[a-z]\w*/\w+(?:, )?)+)')
GROUPS = re.compile(r'\b(?:sheet|pair|step|client|run|choosing|text|edit|row)_cases ' + NAMES)
FUNCTION = re.compile(r'`(\w+)::(?:\w+::)*(\w+)`')
# a name of ours by its form, with or without a field behind it: two words, or a capital letter
WORD = re.compile(r"`([A-Za-z][\w']*[-_A-Z][\w'-]*|[A-Z][a-z]+\w*)(?:\.(?!py|antt)([\w-]+))?`")
PATH = re.compile(r'(?<![\w/])((?:(?:crates|docs|examples|include|tests|tools|\.ci)|\w+/(?:specs|proofs|src))/[\w./-]*\w)')


def written():
    """Every word of the crates, of the header and of the reference program."""
    patterns = ['crates.txt', 'crates/**/*.rt', 'crates/**/*.antt', 'include/*.h', 'tests/reference/*.py']
    sources = [path for pattern in patterns for path in Path('.').glob(pattern) if 'out' not in path.parts]
    return {word for source in sources for word in re.findall(r"[A-Za-z][\w'-]*", source.read_text())}


WORDS = written()
# crates that others build on and that are not ours
LISTED = re.sub('#.*', '', Path('crates.txt').read_text())
TOOLCHAIN = {name for name in re.findall(r'\w+', LISTED) if not Path('crates', name).exists()}


def names(text):
    return re.findall('`([^`]+)`', text or '')


def at(path):
    """A path as documents write it: a crate's may begin with the crate."""
    return Path(path) if Path(path).exists() else Path('crates', path)


def there(path):
    return path.read_text() if path.is_file() else ''


def declares(path, name):
    """Whether a file declares a name, in the manner of its language."""
    word = re.escape(name)
    if path.suffix == '.antt':
        return re.search(rf'^\s*(?:(?:pub|unfoldable|abbrev|record|data) )*{word}(?= )', there(path), re.M)
    if path.suffix == '.rt':
        return re.search(rf'\b(?:fn|struct|enum|const|mod) {word}\b', there(path))
    return re.search(rf'\b{word}\b', there(path))


def sources(owner):
    """The files in which a crate, a module or a type declares its functions."""
    places = Path('crates').glob('*/src/*.rt')
    kind = re.compile(rf'\b(?:struct|enum) {owner}\b')
    return [path for path in places if owner in (path.parts[1], path.stem) or kind.search(there(path))]


def pieces(text):
    """The rows of tables, and paragraphs as one line, each with the number of its first line."""
    piece, first = '', 0
    for number, line in enumerate(text.splitlines() + [''], 1):
        if piece and (not line.strip() or line.startswith(('|', '- ')) or piece.startswith('|')):
            yield first, piece
            piece = ''
        piece, first = (piece + ' ' + line.strip(), first) if piece else (line.strip(), number)


def lookups(line):
    """The names of a piece: sort, what is named, whether it is there."""
    for called, edits in EDITS.findall(line):
        for edit in edits.strip(', ').split(', '):
            crate, _, name = edit.partition('/')
            text = there(Path('crates', crate, 'must-fail', name + '.edit'))
            # one that changes what an inner function promises, and neither code nor a statement that is read, is called so
            contract = crate not in STATEMENTS and text.startswith('file: specs/')
            yield 'edit of a contract' if called else 'edit', edit, text and contract == bool(called)
    for groups in GROUPS.findall(line):
        cases = [there(path) for path in Path('tests/reference').glob('*.py')]
        for group in names(groups):
            yield 'group', group, any(f'def {group}(' in text for text in cases)
    for placed, proofs, file, path, fields in PLACED.findall(line):
        place = at(path) if path else Path('crates/model', 'proofs' if proofs else 'specs', file + '.antt')
        for name in names(placed) + names(fields):
            yield 'declaration', f'{name} in {place}', declares(place, name.split('::')[-1])
    for owner, name in FUNCTION.findall(line):
        if owner not in TOOLCHAIN:
            yield 'function', f'{owner}::{name}', any(declares(source, name) for source in sources(owner))
    for path in PATH.findall(line):
        yield 'path', path, at(path).exists()
    for words in WORD.findall(line):
        for word in filter(None, words):
            yield 'word', word, word in WORDS


def theorems(text):
    """The theorems that docs/PROMISES.md lists without a place."""
    proofs = list(Path('crates').glob('*/proofs/*.antt'))
    part = text.partition('## What else is proved')[2].partition('\n## ')[0]
    for name in names(' '.join(row.split('|')[1] for row in part.splitlines() if row.startswith('| `'))):
        yield 'theorem', name, any(declares(path, name) for path in proofs)


def main():
    kinds = ('edit', 'edit of a contract', 'group', 'declaration', 'function', 'path', 'word', 'theorem')
    sorts, missing = Counter({kind: 0 for kind in kinds}), 0
    for document in DOCUMENTS:
        text = document.read_text()
        found = [(first, *one) for first, piece in pieces(text) for one in lookups(piece)]
        found += [(0, *one) for one in theorems(text)]
        for first, sort, what, good in found:
            if ANY.search(what):
                continue
            sorts[sort] += 1
            if not good:
                missing += 1
                print(f'{document}:{first}: no such {sort}: {what}')
    print(', '.join(f'{sort} {count}' for sort, count in sorts.items()) + f'; missing {missing}')
    return 0 if missing == 0 and all(sorts.values()) else 1


sys.exit(main())
