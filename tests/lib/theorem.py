#!/usr/bin/env python3
# SPDX-License-Identifier: MIT OR Apache-2.0
"""Counts what the theorem stands on: all that the contract of `run` reaches by names.

It reads the definitions in `specs/*.antt`, and in `src/*.rt` the declarations that they name. From
the contract of `run` it goes from name to name, and stops at names of the kit.

What it counts is written in docs/theorem.md. `python3 tests/lib/theorem.py` prints the table.
"""
import pathlib
import re
from dataclasses import dataclass, field
from typing import Dict, List, Optional, Set, Tuple

ROOT = pathlib.Path(__file__).resolve().parents[2]
START = ROOT / 'crates/session_run/src/running.rt'

SIGNATURE = re.compile(r'(?:(?:abbrev|unfoldable|pub)\s+)+(?:(record|data)\s+)?(\S+)(.*)')
PLAIN_SIGNATURE = re.compile(r'(\S+)(?:\s+\{[^}]*\})?\s+:\s')
ITEM = re.compile(r'\s*(?:pub(?:\([a-z]+\))?\s+)?(struct|enum|trait|const)\s+([A-Za-z_]\w*)')
MODEL = re.compile(r'impl(?:<[^>]*>)?\s+Model\s+for\s+(\w+)')
USE = re.compile(r'use\s+([\w.\']+?)(?:\.\{(.*)\})?(?:\s+as\s+(\w+))?\s*$')

Key = Tuple[str, str]  # a file, from the top of the repository, and a name in it


@dataclass
class Definition:
    """A definition of a file, with the lines that count."""
    file: str
    name: str
    lines: List[str] = field(default_factory=list)


@dataclass
class Source:
    """A file: its definitions, and where each name comes from that its `use` lines bring in."""
    path: str
    crate: str
    names: Dict[str, Key] = field(default_factory=dict)
    modules: Dict[str, str] = field(default_factory=dict)
    constructors: Dict[str, str] = field(default_factory=dict)
    definitions: Dict[str, Definition] = field(default_factory=dict)


def without_comment(line: str, mark: str) -> str:
    """The line without its comment and texts in quotes."""
    return re.sub(r'"(?:[^"\\]|\\.)*"', '""', line).split(mark)[0].rstrip()


def crate_of(path: pathlib.Path) -> str:
    """The crate in whose folder a file is."""
    return path.relative_to(ROOT / 'crates').parts[0]


def name_of(path: pathlib.Path) -> str:
    """A file's path from the top of the repository."""
    return path.relative_to(ROOT).as_posix()


def add_use(source: Source, line: str) -> None:
    """Takes in a `use` line of antt: of names, or of a module under a name of its own."""
    match = USE.match(line)
    module, items, alias = match.group(1), match.group(2), match.group(3)
    if items is None:
        source.modules[alias or module.rsplit('.', 1)[-1]] = module
        return
    for item in items.split(','):
        name, _, other = item.strip().partition(' as ')
        source.names[other or name] = (module, name)


def signed(line: str) -> Optional[str]:
    """The name that a line at the margin begins to define."""
    match = SIGNATURE.match(line)
    if match:
        return match.group(2)
    match = PLAIN_SIGNATURE.match(line)
    return match.group(1) if match else None


def read_specs(path: pathlib.Path) -> Source:
    """The definitions of an .antt file. Clauses and indented lines go to the definition above."""
    source = Source(name_of(path), crate_of(path))
    current, fixity = None, []
    for raw in path.read_text('utf-8').splitlines():
        line = without_comment(raw, '--')
        if not line or re.match(r'(pub\s+)?mod\s', line):
            continue
        if line.startswith('use '):
            add_use(source, line)
        elif line.startswith('infix'):
            fixity = [line]
        else:
            name = None if line[0] == ' ' else signed(line)
            if name:
                current = Definition(source.path, name, fixity)
                source.definitions[name] = current
                fixity = []
            if current:
                current.lines.append(line)
                add_constructor(source, current, line)
    return source


def add_constructor(source: Source, data: Definition, line: str) -> None:
    """Takes in the constructor that a line of a `data` definition names."""
    constructor = re.match(r'\s+([A-Z]\w*) : ', line)
    if constructor and ' data ' in f' {data.lines[0]} ':
        source.constructors[constructor.group(1)] = data.name


def block(lines: List[str], start: int) -> List[str]:
    """The lines of an item: up to its `;`, or to the brace that closes it."""
    depth, taken = 0, []
    for line in lines[start:]:
        taken.append(line)
        depth += line.count('{') - line.count('}')
        if depth == 0 and line.rstrip().endswith((';', '}')):
            break
    return [line for line in taken if line.strip() and not line.strip().startswith('#')]


def ghosts(lines: List[str], wanted: str) -> List[str]:
    """The ghost items of a trait or an `impl` whose names the pattern matches."""
    taken: List[str] = []
    for number, line in enumerate(lines):
        if re.match(rf'\s*ghost\s+(?!use\b)(?:{wanted})\s*[:=]', line):
            taken += block(lines, number)
    return taken


def add_item(source: Source, lines: List[str], number: int) -> None:
    """Takes in the struct, enum, trait, constant or `impl Model` that begins in a line."""
    line = lines[number]
    model = MODEL.match(line)
    if model:
        value = ghosts(block(lines, number), 'Value')
        source.definitions[model.group(1)] = Definition(source.path, model.group(1), value)
        return
    item = ITEM.match(line)
    if not item or item.group(2) in source.definitions:
        return
    whole = block(lines, number)
    counted = ghosts(whole, r'\w+') if item.group(1) == 'trait' else whole
    source.definitions[item.group(2)] = Definition(source.path, item.group(2), counted)


def read_code(path: pathlib.Path) -> Source:
    """The declarations of a .rt file, with the names that its `use` lines bring in."""
    source = Source(name_of(path), crate_of(path))
    text = path.read_text('utf-8')
    lines = [without_comment(line, '//') for line in text.splitlines()]
    for line in lines:
        ghost = re.match(r'\s*ghost (use .*);', line)
        if ghost:
            add_use(source, ghost.group(1))
    for use in re.findall(r'^\s*(?:pub\s+)?use ([\w:]+)::(\{[^}]*\}|\w+);', '\n'.join(lines), re.M):
        crate = use[0].split('::')[0]
        for name in re.findall(r'\w+', use[1]):
            home = source.crate if crate == 'crate' else crate
            source.names.setdefault(name, (f'code {home}', name))
    for number in range(len(lines)):
        add_item(source, lines, number)
    return source


class Repository:
    """All sources, and what each name in them stands for."""

    def __init__(self) -> None:
        self.sources: Dict[str, Source] = {}
        self.declared: Dict[Tuple[str, str], Key] = {}
        for path in sorted((ROOT / 'crates').glob('*/specs/**/*.antt')):
            self.sources[name_of(path)] = read_specs(path)
        for path in sorted((ROOT / 'crates').glob('*/src/**/*.rt')):
            source = read_code(path)
            self.sources[source.path] = source
            for name in source.definitions:
                self.declared.setdefault((source.crate, name), (source.path, name))
        self.cited: Set[str] = set()

    def in_module(self, module: str, name: str) -> Optional[Key]:
        """What a name of a module stands for; a name of the kit is noted and gives nothing."""
        if module.startswith('code '):
            return self.declared.get((module[5:], name))
        parts = module.split('.')
        crate = parts[1] if parts[0] == 'Rattle' else ''
        if not (ROOT / 'crates' / crate / 'src').is_dir() or not crate:
            self.cited.add('.'.join(parts[:2]))
            return None
        if 'declared' in parts:
            if parts[-1] == 'TheConstants':
                return self.declared[(crate, name)]
            return self.declared[(crate, parts[-2] if parts[-1].startswith('The') else parts[-1])]
        return (f'crates/{crate}/{"/".join(parts[2:])}.antt', name)

    def stands_for(self, source: Source, word: str) -> Optional[Key]:
        """What a word of a definition stands for, but for names of the kit."""
        first, _, rest = word.partition('.')
        if first in source.modules and rest:
            return self.in_module(source.modules[first], rest.split('.')[0])
        for name in (first, f'◌{word}◌'):
            if name in source.definitions or name in source.constructors:
                return (source.path, name)
            if name in source.names:
                return self.in_module(*source.names[name])
        return None

    def definition(self, key: Key) -> Optional[Definition]:
        """A definition by file and name, or by one of its constructors."""
        source = self.sources[key[0]]
        return source.definitions.get(source.constructors.get(key[1], key[1]))

    def reached_from(self, source: Source, lines: List[str]) -> Set[Key]:
        """The definitions that these lines name."""
        marks = r'[\s(){}\[\],;:]+' if source.path.endswith('.antt') else r'\W+'
        words = set(re.split(marks, ' '.join(lines))) - variables(lines)
        if 'do' in words:
            words |= {'>>=', '>>'}
        names = {word.lstrip('λ.') for word in words} - {''}
        found = {self.stands_for(source, name) for name in names}
        definitions = [self.definition(key) for key in found if key]
        return {(definition.file, definition.name) for definition in definitions if definition}


def variables(lines: List[str]) -> Set[str]:
    """The words that a definition binds: by `λ`, before a `:` or `←`, or in a clause's patterns."""
    bound: Set[str] = set()
    for line in lines:
        for names in re.findall(r'[({]([^(){}:]*?) : |λ\s*([^.():]*)\.', line):
            bound |= set(' '.join(names).split())
        bound |= set(re.findall(r'^\s+(\S+) ←', line))
        clause = re.match(r'(\S+) ([^≡:]*?) = ', line)
        if clause and not line.startswith(' '):
            bound |= set(re.findall(r'[^\s()]+', clause.group(2)))
    return {word for word in bound if word[:1].islower() and '.' not in word}


def contract(source: Source, function: str) -> List[str]:
    """The signature and the clauses of a public function."""
    text = (ROOT / source.path).read_text('utf-8')
    start = re.search(rf'^pub fn {function}<', text, re.M).start()
    end = text.index('\n{\n', start)
    return [without_comment(line, '//') for line in text[start:end].splitlines()]


def members(repository: Repository, source: Source, lines: List[str]) -> Set[Key]:
    """The ghost items of this repository's traits that bound a type in the lines."""
    bounds = re.findall(r'\b\w+: (\w+)', ' '.join(lines))
    found = {repository.stands_for(source, bound) for bound in bounds}
    return {key for key in found if key and repository.definition(key).lines}


def closure(repository: Optional[Repository] = None) -> List[Definition]:
    """All definitions that the contract of `run` reaches, each once, by file and line."""
    repository = repository or Repository()
    start = repository.sources[name_of(START)]
    lines = contract(start, 'run')
    waiting = repository.reached_from(start, lines) | members(repository, start, lines)
    waiting = {key for key in waiting if repository.definition(key).lines}
    reached: Set[Key] = set()
    while waiting:
        key = waiting.pop()
        reached.add(key)
        definition = repository.definition(key)
        waiting |= repository.reached_from(repository.sources[key[0]], definition.lines) - reached
    found = [repository.definition(key) for key in reached]
    order = {file: list(source.definitions) for file, source in repository.sources.items()}
    return sorted(found, key=lambda d: (d.file, order[d.file].index(d.name)))


def by_file(definitions: List[Definition]) -> Dict[str, Tuple[int, int]]:
    """Of each file of the closure, how many definitions and how many lines it has in it."""
    figures: Dict[str, Tuple[int, int]] = {}
    for definition in definitions:
        count, lines = figures.get(definition.file, (0, 0))
        figures[definition.file] = (count + 1, lines + len(definition.lines))
    return figures


def kit_crates(program: str) -> Set[str]:
    """The kit's crates that a program, or a crate of this repository below it, names."""
    uses = {}
    for line in (ROOT / 'crates.txt').read_text('utf-8').splitlines():
        if not line.startswith('#') and ':' in line:
            name, _, used = line.partition(':')
            uses[name.split()[0]] = used.split()
    waiting, found = [program], set()
    while waiting:
        for used in uses[waiting.pop()]:
            if used in uses:
                waiting.append(used)
            else:
                found.add(used)
    return found


def unsafe_blocks() -> List[str]:
    """The files of this repository that have an `unsafe` block, once for each block."""
    files = sorted((ROOT / 'crates').glob('*/src/**/*.rt'))
    code = {name_of(file): file.read_text('utf-8').splitlines() for file in files}
    lines = [(name, without_comment(line, '//')) for name in code for line in code[name]]
    return [name for name, line in lines if re.search(r'\bunsafe\b(?!\()', line)]


def main() -> None:
    """Prints the table."""
    repository = Repository()
    definitions = closure(repository)
    for file, (count, lines) in by_file(definitions).items():
        whole = len((ROOT / file).read_text('utf-8').splitlines())
        print(f'{lines:5} lines of {count:3} definitions in a file of {whole:4}: {file}')
    total = sum(len(d.lines) for d in definitions)
    files = len(by_file(definitions))
    print(f'{total:5} lines of {len(definitions):3} definitions in {files} files')
    cited = sorted(name.split('.')[1] for name in repository.cited)
    print('crates of the kit, cited there: ' + ', '.join(cited))
    print('crates of the kit, used by tile_editor: ' + ', '.join(sorted(kit_crates('tile_editor'))))
    print('unsafe blocks: ' + ', '.join(unsafe_blocks()))


if __name__ == '__main__':
    main()
