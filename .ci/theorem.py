#!/usr/bin/env python3
"""Checks docs/THEOREM.md against the sources: what it quotes, and how many lines it says that definitions have.

A block ```of FILE NAME is the contract of that function, or that definition, without its comments. A row of a table that
ends with a word, its file and two numbers tells how many lines of the file the contract that was quoted last rests on,
and how many lines the word has together with all that it rests on. One sentence tells the same of the whole contract.

A line counts unless it is blank, a comment or an import. Types and constants of the code count as definitions. What the
standard library and the ported crates define does not count. A name stands for what it is imported as, or for what the
file defines under it. So a variable that has such a name may count too many lines, and never too few.

.ci/theorem.py            checks the page
.ci/theorem.py --write    writes blocks and numbers as they are now
.ci/theorem.py --list     prints each file that the contract of `run` rests on, with its lines
"""
import functools
import pathlib
import re
import sys
import textwrap

TOP = pathlib.Path(__file__).resolve().parent.parent
CRATES = TOP / 'crates'
PAGE = TOP / 'docs/THEOREM.md'
RUN = 'orca_player/src/top.rt'
ROW = (r'^(?P<head>\|[^\n]*\| `(?P<word>[^` \n]+)` \| `(?P<file>\w+/(?:specs|src)/[^`\n]+)` \|)'
       r' [\d,]+ \| [\d,]+ \|$')
WHOLE = r'[\d,]+ lines: [\d,]+ definitions in [\d,]+ files'
BLOCK = r'^```of (?P<source>\S+) (?P<name>\S+)\n.*?^```$'

NAME = r'[^\W\d][\w◌]*(?:-\w+)*'
WORD = re.compile(rf'(?<![.\w]){NAME}(?:\.{NAME})*')
HEAD = re.compile(rf'^(?:(?:pub|abbrev|unfoldable|record|data) )*({NAME})')
IMPORT = re.compile(r'^(?:ghost )?use Rattle\.(\w+)\.specs\.([\w.]+?)(?:\.\{(.*)\}| as (\w+));?$', re.M)
PUBLIC = r'^(?:pub(?:\(crate\))? )?'
DECLARED = re.compile(
    rf'{PUBLIC}(?:struct|enum) (\w+).*?(?:^}}|;)$|{PUBLIC}(?:const|static|type) (\w+).*?;$', re.M | re.S)


def counted_lines(text):
    """The lines that count."""
    lines = (re.split('--|//', line)[0].rstrip() for line in text.splitlines())
    return [line for line in lines if line and not re.match(r'(ghost )?use |(pub )?mod |#\[', line.strip())]


@functools.cache
def items_of(path):
    """The definitions of a file, each with its lines."""
    text = path.read_text()
    items = {}
    if path.suffix == '.rt':
        for match in DECLARED.finditer(text):
            items[match[1] or match[2]] = counted_lines(match[0])
        return items
    name = None
    for line in counted_lines(text):
        head = HEAD.match(line)
        if head and head[1] != 'unfolding':
            name = head[1]
        items.setdefault(name, []).append(line)
    return items


@functools.cache
def definition(path, name):
    """Where a file defines a name: by itself, or as a variant of a type; none if it does not."""
    items = items_of(path)
    if name in items:
        return path, name
    for owner, lines in items.items():
        if ' data ' in f' {lines[0]}' and any(line.startswith(f'  {name} :') for line in lines):
            return path, owner
    return None


@functools.cache
def imported(crate, module, name):
    """The definition that an import names; none if it is not of this repository."""
    parts = module.split('.')
    is_code = parts[0] == 'declared'
    root = CRATES / crate / ('src' if is_code else 'specs')
    parts = parts[1:] if is_code else parts
    inner = []
    while parts:
        path = root.joinpath(*parts).with_suffix('.rt' if is_code else '.antt')
        if path.exists():
            # What is imported from a type is the type itself, or one of its variants.
            return definition(path, next((part for part in inner if not part.startswith('The')), name))
        inner.insert(0, parts.pop())
    return None


@functools.cache
def scope_of(path):
    """What each imported name, and each name of a module, stands for."""
    names, modules = {}, {}
    for crate, module, listed, alias in IMPORT.findall(path.read_text()):
        if alias:
            modules[alias] = (crate, module)
        for entry in filter(None, listed.split(', ')):
            old, _, new = entry.partition(' as ')
            names[new or old] = (crate, module, old)
    return names, modules


def named_in(path, lines):
    """The definitions that these lines of a file name."""
    names, modules = scope_of(path)
    for word in WORD.findall('\n'.join(lines)):
        first, _, rest = word.partition('.')
        if first in names:
            yield imported(*names[first])
        elif first in modules and rest:
            yield imported(*modules[first], rest.split('.')[0])
        else:
            yield definition(path, first)


def all_below(places):
    """These definitions, and all that they rest on."""
    found, left = set(), list(places)
    while left:
        place = left.pop()
        if place and place not in found:
            found.add(place)
            left.extend(named_in(place[0], items_of(place[0])[place[1]]))
    return found


def lines_in(places):
    return sum(len(items_of(path)[name]) for path, name in places)


def contract_of(path, name):
    """The head of a function, or of a call of a trait, without comments."""
    text = path.read_text()
    found = (re.search(rf'^pub fn {name}\b.*?(?=^\{{$)', text, re.M | re.S)
             or re.search(rf'^    fn {name}\b.*?;$', text, re.M | re.S))
    return counted_lines(textwrap.dedent(found[0])) if found else None


@functools.cache
def below(path, name):
    """All that the contract of a function rests on."""
    return all_below(named_in(path, contract_of(path, name)))


@functools.cache
def files_below(path, name):
    """The files of these definitions, each with its lines that count."""
    files = {}
    for place in below(path, name):
        files.setdefault(place[0], []).append(place)
    return {path: lines_in(places) for path, places in files.items()}


def row_now(row, root):
    """A row of a table, with its numbers as they are now."""
    path = CRATES / row['file']
    if not path.exists() or (path, row['word']) not in below(*root):
        sys.exit(f'docs/THEOREM.md: the contract of {root[1]} rests on no {row["word"]} of {row["file"]}')
    return f'{row["head"]} {files_below(*root)[path]:,} | {lines_in(all_below([(path, row["word"])])):,} |'


def block_now(path, name):
    """A block, with the lines as they are now."""
    lines = path.exists() and (contract_of(path, name) if path.suffix == '.rt' else items_of(path).get(name))
    if not lines:
        sys.exit(f'docs/THEOREM.md: {path.relative_to(CRATES)} has no {name}')
    return '\n'.join([f'```of {path.relative_to(CRATES)} {name}', *lines, '```'])


def whole_now(root):
    return f'{lines_in(below(*root)):,} lines: {len(below(*root)):,} definitions in {len(files_below(*root)):,} files'


def page_now(page):
    """The page, as it has to be now."""
    root = None

    def now(part):
        nonlocal root
        if part['source']:
            path, name = CRATES / part['source'], part['name']
            if path.suffix == '.rt':
                root = path, name
            return block_now(path, name)
        return row_now(part, root) if part['word'] else whole_now(root)

    return re.sub(f'{BLOCK}|{ROW}|{WHOLE}', now, page, flags=re.M | re.S)


def main():
    if sys.argv[1:] == ['--list']:
        for path, lines in sorted(files_below(CRATES / RUN, 'run').items()):
            print(f'{lines:5} {path.relative_to(CRATES)}')
        return
    page = PAGE.read_text()
    now = page_now(page)
    if sys.argv[1:] == ['--write']:
        PAGE.write_text(now)
    elif now != page:
        wrong = next(new for old, new in zip(page.splitlines(), now.splitlines()) if old != new)
        sys.exit(f'docs/THEOREM.md is not as it has to be now (.ci/theorem.py --write mends it), from this line on: {wrong}')


if __name__ == '__main__':
    main()
