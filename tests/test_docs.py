# SPDX-License-Identifier: MIT OR Apache-2.0
"""Looks whether the pages say what is so:

- each file that a page links or names is there, and each page is reached from the README; the
  functions that docs/architecture.md walks through stand in the files that it names;
- each transcript gives the replies that stand there, and that of the README has the lines of
  `examples/town.session`; each line that stands there as refused is refused so;
- each command in the pages at the top and in `docs/` ends with status 0, and each block of
  `console` prints what stands there; but not the commands of the gate itself, which docs/GATE.md
  has, those that need Tiled or a network, and the tutorials, which have a step of their own; each
  program in Python or JavaScript that stands there ends with status 0;
- docs/refusals.md has the codes and words of the program's source, and docs/map-files.md those of
  maps that are refused;
- the help of the program has each form of a line that docs/session-lines.md has, and no other;
- the README and `tile_editor` name the glibc that the programs need;
- docs/GATE.md has each step of the tests.

How the pages are laid out, test_docs_layout.py sees."""
import os
import re
import shutil
import subprocess

from lib.cases import CORES, Case, check_each, fail_with, passed, skip, unlike
from lib.forms import FURTHER, HELP, spread
from lib.pages import CODE, Clone, Page, pages
from lib.places import BIN, EXAMPLES, TOP
from lib.refusals import OF_MAPS, ROWS
from lib.runner import all_steps

PACKAGES = ('nodejs',)
GATE = TOP / 'docs' / 'GATE.md'
LINES = TOP / 'docs' / 'session-lines.md'
TUTORIALS = TOP / 'docs' / 'tutorials'
EDITOR = BIN / 'tile_editor'
PAGES = pages()
# Those whose lines and commands are tried here: the list of changes tells of other versions, too.
TRIED = [page for page in PAGES if page.path.parent != TUTORIALS and page.name != 'CHANGELOG.md']


# ---- links


def is_there(path):
    if '*' in str(path.parent):
        return any(TOP.glob(str(path.relative_to(TOP))))
    return any(path.parent.glob(path.name)) if '*' in path.name else path.exists()


def fault_of_links(page):
    missing = [f'{path}: not there' for path in page.links() if not is_there(path)]
    missing += [
        f'{path}: no heading {heading}'
        for path, heading in page.places()
        if path.exists() and heading not in Page(path).headings()
    ]
    if page.path.parent.parent == TOP / 'crates':
        missing += [
            f'{name}: in no crate'
            for name in page.files_of_crate()
            if not (page.path.parent / name).exists() and not any(TOP.glob(f'crates/*/{name}'))
        ]
    return '\n    '.join(missing) or None


def test_files_that_pages_name():
    check_each(PAGES, fault_of_links)


def test_each_page_is_reached_from_the_readme():
    known = {page.path: page for page in PAGES}
    reached, new = set(), [TOP / 'README.md']
    while new:
        path = new.pop()
        if path in known and path not in reached:
            reached.add(path)
            new += [link.resolve() for link in known[path].links()]
    fail_with(
        f'{page.name}: no page that the README leads to leads here'
        for path, page in known.items()
        if path not in reached
    )


def fault_of_walk(case):
    """The functions of a row that none of its files has, or None. A type stands in front of some."""
    functions, files = case.given
    sources = [(TOP / name).read_text() for name in CODE.findall(files)]
    missing = [
        name
        for name in re.findall(r'`(?:\w+::)?([a-z_]+)`', functions)
        if not any(re.search(rf'\bfn {name}\b', source) for source in sources)
    ]
    return f'no function {", ".join(missing)} in {files}' if missing else None


def test_functions_of_the_walks():
    """The walks of lines through the crates name the file of each function."""
    rows = list(Page(TOP / 'docs' / 'architecture.md').rows_of('Functions', 'Files'))
    assert len(rows) > 12, rows
    check_each([Case(row[0], row, None) for row in rows], fault_of_walk)


# ---- lines


def test_transcripts():
    check_each([run for page in TRIED for run in page.runs()], lambda run: run.fault(EDITOR), CORES)


def test_the_transcript_of_the_readme():
    """It has the lines of an example."""
    session = (EXAMPLES / 'town.session').read_text().split('\n')
    readme = next(page for page in PAGES if page.name == 'README.md')
    fault = unlike(
        [line for line in session if line and not line.startswith('#')], readme.runs()[0].lines()
    )
    assert not fault, f'README.md: {fault}'


def fault_of_refused_lines(case):
    """How a page's lines are answered otherwise than by the codes that stand there, or None."""
    session = ''.join(f'{line}\n' for line, _ in case.given)
    done = subprocess.run([EDITOR], input=session.encode(), capture_output=True, timeout=120)
    replies = done.stdout.decode().split('\n')[:-1]
    if len(replies) != len(case.given):
        return f'{len(replies)} replies to {len(case.given)} lines that are refused'
    passed(len(replies))
    wrong = [
        f'{line!r}: the page has {code}, the program {reply!r}'
        for (line, code), reply in zip(case.given, replies)
        if not reply.startswith(f'no {code} ')
    ]
    return '\n    '.join(wrong) or None


def test_lines_that_are_refused():
    given = [Case(page.name, list(page.refused_lines()), None) for page in TRIED]
    check_each([case for case in given if case.given], fault_of_refused_lines)


# ---- commands


def runs_command(clone, page, command):
    """What is wrong with a command of a page, or None."""
    told, status = clone.run([command])
    if status != 0:
        return f'{command}: status {status}: {told}'
    passed()
    is_first = command.endswith('< examples/town.session')
    wanted = ['\n'.join(reply for _, reply in page.runs()[0].rows)] if is_first else told
    return unlike(wanted, told) and f'{command}: {unlike(wanted, told)}'


def fault_of_program(clone, words, program):
    """What is wrong with a program, which these words run, or None."""
    clone.maps.mkdir(exist_ok=True)
    env = {**os.environ, 'PYTHONPATH': 'python', 'PYTHONDONTWRITEBYTECODE': '1'}
    done = subprocess.run(
        [*words, program.replace('/tmp/maps', str(clone.maps))],
        cwd=clone.folder,
        env=env,
        capture_output=True,
        timeout=120,
    )
    return f'a program: {done.stderr.decode()}' if done.returncode != 0 else None


def needs_pip(command):
    return command.startswith('pip ') and not shutil.which('pip')


def fault_of_commands(page):
    """What is wrong with a page's commands, which are run one after the other in one copy of the
    repository, or None."""
    with Clone() as clone:
        faults = [
            runs_command(clone, page, command)
            for command in page.commands()
            if not needs_pip(command)
        ]
        for console in page.consoles():
            clone.clear()
            faults.append(clone.fault_of_console(console))
        faults += [fault_of_program(clone, *program) for program in page.programs()]
    return '\n    '.join(filter(None, faults)) or None


def pages_with_commands():
    tried = [
        page
        for page in TRIED
        if page.path != GATE and (page.path.parent == TOP or TOP / 'docs' in page.path.parents)
    ]
    return [
        page
        for page in tried
        if any(page.commands()) or any(page.consoles()) or any(page.programs())
    ]


def test_commands():
    check_each(pages_with_commands(), fault_of_commands, CORES)
    left = [
        f'{page.name}: {command}'
        for page in pages_with_commands()
        for command in page.commands()
        if needs_pip(command)
    ]
    if left:
        skip(f'pip is not here: {", ".join(left)}')


# ---- tables


def test_refusals_of_the_source():
    sources = (TOP / 'crates' / 'refusals' / 'src').glob('*.rt')
    wanted = sorted(
        (int(code), words)
        for source in sources
        for code, words in re.findall(r'"(\d+) (.+)"', source.read_text())
    )
    assert (
        wanted == ROWS and wanted
    ), f'docs/refusals.md: {sorted({*wanted} ^ {*ROWS})}: not as in the source, or not in its order'


def test_refusals_of_maps():
    codes = [
        int(code)
        for code in re.findall(
            r'^\| (\d+) \|', (TOP / 'docs' / 'map-files.md').read_text(), re.MULTILINE
        )
    ]
    fault = unlike(list(OF_MAPS), codes)
    assert not fault, f'docs/map-files.md: {fault}'


def forms_of_tables(text):
    """The forms of the tables of a text, each without alternatives."""
    cells = re.findall(r'^\| (`.*?) \| ', text, re.MULTILINE)
    codes = [code for cell in cells for code in re.findall(r'`([^`]+)`', cell)]
    return [form for code in codes for form in spread(code.replace('\\|', '|'))]


def test_forms_for_all_edits():
    """So it has those of the lines for all edits, which have a section of their own: `member set` and
    `member put` may have a `+`."""
    section = LINES.read_text().partition('<!-- forms: all edits -->')[2]
    forms = forms_of_tables(section.partition('<!-- end of forms -->')[0])
    forms += [form.replace(front, f'{front}+', 1) for form in forms for front in ('member set', 'member put') if form.startswith(front)]
    fault = unlike(sorted(forms), sorted(FURTHER))
    assert forms and not fault, fault


def test_forms_of_the_help():
    """The help has each form of a line that the page of lines has, on a line of its own, and no
    other."""
    page = LINES.read_text()
    forms = forms_of_tables(page.partition('### Commands')[2].partition('\n## ')[0])
    merging = re.search(
        r'^(`.*?) have the same form', page.partition('## Lines with a `+`')[2], re.MULTILINE
    )[1]
    for front in re.findall(r'`([^`]+)\+`', merging):
        forms += [
            form.replace(front, f'{front}+', 1) for form in forms if form.startswith(f'{front} ')
        ]
    assert sorted(forms) == sorted(
        HELP
    ), f'{sorted({*forms} ^ {*HELP})}: not in both, docs/session-lines.md and --help'


def test_glibc_of_the_programs():
    told = ''.join(
        subprocess.run(
            ['objdump', '-T', BIN / name], capture_output=True, text=True, check=True
        ).stdout
        for name in ('tile_editor', 'map_report')
    )
    newest = max(
        re.findall(r'GLIBC_([0-9.]+)', told),
        key=lambda version: [int(part) for part in version.split('.')],
    )
    fail_with(
        f'{name}: the programs need glibc {newest}'
        for name in ('README.md', 'tile_editor')
        if f'glibc {newest} or later' not in ' '.join((TOP / name).read_text().split())
    )


def test_steps_of_the_gate():
    rows = re.findall(r'^\| `(\w+)` \| ', GATE.read_text(), re.MULTILINE)
    steps = [step.name for step in all_steps()]
    assert (
        sorted(rows) == steps
    ), f'docs/GATE.md: {sorted({*steps} ^ {*rows})}: not in both, its table and the steps in tests/'
