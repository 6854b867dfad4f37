#!/usr/bin/env python3
"""Brings the names of definitions and lemmas to snake case, and the module of the code's forms to camel case: run once, at the top,
after the scripts of the toolchain's port. In files of specs/ and proofs/, in the clauses of src/ and in must-fail edits of those each
part of a name that is written blockCount becomes block_count; a part that begins with a capital is a type's and stays. A
lemma that has such a name already gets _lem. Prints the names that would fall together all the same, and then changes nothing."""
import functools
import pathlib
import re
import sys

root = pathlib.Path(__file__).resolve().parent.parent
crates = root / 'crates'
# letters, digits, _ and ' make a part; - and operators join parts
PART = re.compile(r"(?<![\w'])([a-z][a-z0-9']*(?:[A-Z]+[a-z0-9_']*)+)(?![\w'])")
# a word that the library spells otherwise
WORDS = {'getD': 'get_or'}
# the timings of the data sheet, in comments: tRAS
TIMING = re.compile(r't[A-Z]+')
# lemmas that have the name that a definition gets
LEMMA = re.compile(r"(?<![\w'.-])(act_by|count_word|done_all|moved_up|none_yet|on_row|one_more|reads_in|rest_in|row_next|step_by|step_room|tag_in|write_word)(?![\w'-])")
DECLARED = re.compile(r"^\s*(?:pub |abbrev |unfoldable )*([^\s(){}:.,]+) :(?!=)", re.M)
# lines of src/ that are clauses or imports of definitions
CLAUSE = re.compile(r'^\s*(?:ghost\b|requires\b|ensures\b)')


def snake(part):
    if part in WORDS or TIMING.fullmatch(part):
        return WORDS.get(part, part)
    return re.sub(r"(?<=[a-z0-9'])([A-Z]+)", lambda m: '_' + m[1].lower(), part)


def turned(text, lemmas=False):
    if lemmas:
        text = LEMMA.sub(r'\1_lem', text)
    return re.sub(r'\bspecs\.form\b', 'specs.Form', PART.sub(lambda m: snake(m[1]), text))


def clauses(text):
    """The text of a source with its clauses turned: they run from their word to the brace that closes them."""
    out, depth = [], 0
    for line in text.split('\n'):
        if depth or CLAUSE.match(line):
            depth += line.count('{') - line.count('}')
            line = turned(line)
        out.append(line)
    return '\n'.join(out)


def edited(text):
    """An edit's text: the lines of files of specs/ and proofs/ are turned, and of sources those that are clauses."""
    out, file = [], ''
    for line in text.split('\n'):
        if line.startswith('file: '):
            file = line[6:]
            line = line.replace('specs/form', 'specs/Form')
        elif line.startswith(('old: ', 'new: ')) and (not file.startswith('src/') or CLAUSE.match(line[5:])):
            line = turned(line)
        out.append(line)
    return '\n'.join(out)


def files():
    for folder in ('specs', 'proofs'):
        for path in sorted(crates.glob('*/%s/**/*.antt' % folder)):
            yield path, functools.partial(turned, lemmas=folder == 'proofs')
    for path in sorted(crates.glob('*/src/**/*.rt')):
        yield path, clauses
    for path in sorted(crates.glob('*/must-fail/*.edit')):
        yield path, edited


def pages():
    """The documents, whose names in `..` are turned; the notes of landings speak of what stood then."""
    for path in [root / 'README.md', root / 'CONTRIBUTING.md', *sorted((root / 'docs').glob('*.md'))]:
        if path.name != 'LANDINGS.md':
            yield path, lambda text: re.sub(r'`[^`\n]+`', lambda m: turned(m[0]).replace('specs/form', 'specs/Form'), text)


def together():
    """Names that are declared in both spellings."""
    names = set()
    for path, how in files():
        if path.suffix == '.antt':
            names |= {(n, how(n)) for n in DECLARED.findall(path.read_text())}
    kept = {n for n, new in names if new == n}
    return sorted((n, new) for n, new in names if new != n and new in kept)


both = together()
for old, new in both:
    print('%s falls together with %s' % (old, new))
if both:
    sys.exit(1)
for path, how in [*files(), *pages()]:
    text = path.read_text()
    new = how(text)
    if '/specs/' in str(path):
        new = re.sub(r'^(\s*(?:pub )?mod )form$', r'\1Form', new, flags=re.M)
    if new != text:
        path.write_text(new)
for path in sorted(crates.glob('*/specs/form.antt')):
    path.rename(path.with_name('Form.antt'))
for path in sorted(crates.glob('*/specs/form')):
    path.rename(path.with_name('Form'))
