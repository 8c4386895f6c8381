# SPDX-License-Identifier: MIT OR Apache-2.0
"""Compares docs/theorem.md with what the contract of `run` reaches."""
import pathlib
import re
import sys

sys.path.insert(0, str(pathlib.Path(__file__).resolve().parent / 'lib'))

import theorem  # noqa: E402

PAGE = theorem.ROOT / 'docs/theorem.md'
ROW = re.compile(r'^\| \[[^\]]*\]\(\.\./(crates/[^)]*)\) \| (\d+) \| (\d+) \|', re.M)


def page() -> str:
    """The page, each paragraph in one line."""
    return re.sub(r'(?<!\n)\n(?![\n|#-])', ' ', PAGE.read_text('utf-8'))


def rows() -> list:
    """The rows of the page's tables: a file, how many definitions, how many lines."""
    return [(file, int(count), int(lines)) for file, count, lines in ROW.findall(page())]


def test_each_file_stands_on_the_page_once():
    """Each file that the contract of `run` reaches has one row, and no other file has."""
    files = [file for file, _, _ in rows()]
    twice = sorted({file for file in files if files.count(file) > 1})
    assert not twice, f'more than one row: {twice}'
    reached = set(theorem.by_file(theorem.closure()))
    assert not reached - set(files), f'no row: {sorted(reached - set(files))}'
    assert not set(files) - reached, f'not reached: {sorted(set(files) - reached)}'


def test_the_figures_of_each_file():
    """Each row has as many definitions and lines as the contract reaches in its file."""
    figures = theorem.by_file(theorem.closure())
    wrong = [f'{file}: {count} {lines}, but {figures[file]} are reached'
             for file, count, lines in rows() if figures[file] != (count, lines)]
    assert not wrong, '\n'.join(wrong)


def test_the_sums():
    """The page's sums are those of all that is reached, of `specs/` and of `src/`."""
    def sums(ending: str) -> tuple:
        found = [d for d in theorem.closure() if d.file.endswith(ending)]
        lines = sum(len(d.lines) for d in found)
        return f'{lines:,}', str(len(found)), str(len({d.file for d in found}))

    wanted = sums('') + sums('.antt') + sums('.rt')
    said = re.search(r'([\d,]+) lines of (\d+) definitions in (\d+) files: ([\d,]+) lines of (\d+) '
                     r'definitions in (\d+) files of `specs/`, and ([\d,]+) lines of (\d+) '
                     r'declarations in (\d+) files of `src/`', page())
    assert said, 'no sentence with the sums'
    assert said.groups() == wanted, f'the page says {said.groups()}, but it is {wanted}'


def test_the_crates_of_the_kit():
    """The page names the kit's crates that the definitions and the code of the program name."""
    repository = theorem.Repository()
    theorem.closure(repository)
    item = re.search(r"\*\*The kit's crates\.\*\* (.*)", page()).group(1)
    cited, _, called = item.partition('The code of')
    found = {name.split('.')[1] for name in repository.cited}
    names = set(re.findall(r'`(\w+)`', cited))
    assert names == found, f'the definitions name {sorted(found)}, the page {sorted(names)}'
    used = theorem.kit_crates('tile_editor') | {'std'}
    names = set(re.findall(r'`(\w+)`', called)) - {'tile_editor'}
    assert names == used, f'the program uses {sorted(used)}, the page has {sorted(names)}'


def test_each_unsafe_block():
    """Each `unsafe` block is named by its file, and the page says how many there are."""
    blocks = theorem.unsafe_blocks()
    text = page()[page().index('**`unsafe`**'):]
    missing = [file for file in blocks if f'`{file}`' not in text]
    assert not missing, f'not named: {missing}'
    said = re.search(r'\*\*`unsafe`\*\* has (\w+) blocks', text).group(1)
    words = ['no', 'one', 'two', 'three', 'four', 'five']
    assert said == words[len(blocks)], f'{len(blocks)} blocks, the page says {said}'


def test_no_handle_is_allowed():
    """`HANDLES` allows nothing, as the page says."""
    line = (theorem.ROOT / 'HANDLES').read_text('utf-8').strip()
    assert line == 'Handles allowed: none.', f'HANDLES says {line}'
