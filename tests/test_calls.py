# SPDX-License-Identifier: MIT OR Apache-2.0
"""Compares both packages with the one table of their calls, tools/calls.py: the names of calls and
values and of their arguments; what each raises, by an expression that must raise it in Python and in
JavaScript; what their texts say of that; that each call of a closed document raises Closed; and the
tables of docs/calls.md and the declarations js/document.d.ts, which `tools/reference` writes. No
call of a release is gone."""
import importlib.machinery
import importlib.util
import inspect
import json
import re
import sys

from lib.cases import Case, check_each, unlike
from lib.places import TOP
from module.node import ran

sys.path.insert(0, str(TOP / 'python'))
sys.path.insert(0, str(TOP / 'tools'))
import calls  # noqa: E402
import roskevad  # noqa: E402

PACKAGES = ('nodejs', 'node-typescript')
PYTHON, JAVASCRIPT = 0, 1
# The calls of Python that stand for those of the table.
SPECIAL = {
    'get': '__getitem__', 'has': '__contains__', 'size': '__len__', 'delete': '__delitem__', 'create': '__init__', 'value_of': '__int__',
}


def reference():
    """The script that writes the pages' tables, as a module."""
    path = str(TOP / 'tools' / 'reference')
    loader = importlib.machinery.SourceFileLoader('reference', path)
    module = importlib.util.module_from_spec(importlib.util.spec_from_loader('reference', loader))
    loader.exec_module(module)
    return module


REFERENCE = reference()


def rows():
    """Each call of the table, with its class."""
    for kind in calls.KINDS:
        yield from ((kind.name, call) for call in kind.calls)
    yield from (('Editor', call) for call in calls.LINE_CALLS)


def costly():
    """All that may have a cost: these calls, and the functions."""
    yield from rows()
    yield from (('', call) for call in calls.FUNCTIONS)


def rows_of(language):
    return [(kind, call) for kind, call in rows() if call.only in ('', REFERENCE.LANGUAGES[language])]


# ---- what is written


def test_pages_and_declarations():
    cases = [Case(str(path.relative_to(TOP)), path, text) for path, text in REFERENCE.written_files().items()]
    check_each(
        cases,
        lambda case: None if case.given.read_text() == case.wanted else 'run tools/reference',
    )


def test_costs():
    """Each name that has a cost is that of a call, and has one cost."""

    def fault_of(case):
        kind, costs = case.given
        names = [name for each in costs.values() for name in each.split(' ')]
        return unlike(sorted({*names}), sorted(names)) or unlike(set(), {*names} - {call.name for each, call in costly() if each == kind})

    check_each([Case(kind, (kind, costs), None) for kind, costs in calls.COSTS.items()], fault_of)


# ---- what releases had


def spelled(language, kind, call):
    """The name of a call with its class, as the list of released calls has it."""
    name = (call.renamed or REFERENCE.camel(call.name)) if language == JAVASCRIPT else call.name
    special = SPECIAL.get(name, name)
    if language == PYTHON and kind and hasattr(getattr(roskevad, kind), special):
        name = special
    return f'{REFERENCE.LANGUAGES[language]} {kind}.{name}' if kind else f'{REFERENCE.LANGUAGES[language]} {name}'


def test_released_calls():
    """Each call that a release with the same first two numbers had stands in the table, which both packages follow."""
    release = '.'.join((TOP / 'VERSION').read_text().split('.')[:2])
    lines_ = [line.split(' ', 1) for line in (TOP / 'tools' / 'released_calls.txt').read_text().splitlines() if not line.startswith('#')]
    there = {spelled(language, kind, call) for language in (PYTHON, JAVASCRIPT) for kind, call in costly()
             if call.only in ('', REFERENCE.LANGUAGES[language])}
    released = [name for since, name in lines_ if since == release]
    assert len(released) > 200, f'{len(released)} calls of {release}'
    check_each([Case(name, name, None) for name in released], lambda case: None if case.given in there else 'a release had it')


# ---- names and arguments


def member_of(kind, call):
    cls = getattr(roskevad, kind)
    special = SPECIAL.get(call.name, call.name)
    return inspect.getattr_static(cls, special if hasattr(cls, special) else call.name, None)


def takes(call, without=()):
    """The names of the arguments of a call, and whether each has a default."""
    plain, options = REFERENCE.arguments(call)
    return [(name, default is not None) for name, default in plain + options if name not in without]


def fault_of_python(case):
    """How a call of the Python package is another one than that of the table, or None."""
    kind, call = case.given
    member = member_of(kind, call)
    if member is None:
        return 'the package has no such call'
    if call.takes is None:
        is_value = isinstance(member, property) or call.name == 'size'
        return None if is_value and (not call.is_set or member.fset) else 'it is no such value'
    parameters = list(inspect.signature(member).parameters.values())[1:]
    came = [(each.name, each.default is not each.empty) for each in parameters]
    # Python has no function that is called within, and its editors load no module.
    return unlike(takes(call, ('work', 'module') if kind in ('Document', 'Editor') else ()), came)


def python_cases():
    renamed = {'has', 'get', 'delete'}
    return [
        Case(f'{kind}.{call.name}', (kind, call), None)
        for kind, call in rows_of(PYTHON)
        if call.name not in renamed and not (kind == 'Properties' and call.name == 'keys')
    ]


def test_calls_of_python():
    check_each(python_cases(), fault_of_python)


def test_nothing_else_in_python():
    """Each public member of a class stands in the table."""

    def fault_of(case):
        named = {SPECIAL.get(call.name, call.name) for kind, call in rows_of(PYTHON) if kind == case.given}
        named |= {call.name for kind, call in rows_of(PYTHON) if kind == case.given}
        cls = getattr(roskevad, case.given)
        members = {name for each in cls.__mro__ if each.__module__.startswith('roskevad') for name in vars(each)}
        # What is a dict has the calls of a dict.
        members -= {name for name in dir(dict) if issubclass(cls, dict)}
        more = {name for name in members if not name.startswith('_')} - named
        return f'{sorted(more)}: not in tools/calls.py' if more else None

    check_each([Case(kind.name, kind.name, None) for kind in calls.KINDS], fault_of)


def test_functions():
    """What is imported beside the classes: in Python by its arguments, in JavaScript by its declaration."""

    def fault_of(case):
        came = list(inspect.signature(getattr(roskevad, case.given.name)).parameters)
        if case.given.only == 'python':
            return unlike(case.wanted, came)
        declared = (TOP / 'js' / 'roskevad.d.ts').read_text()
        said = f'{case.given.takes}: {REFERENCE.typed(case.given, case.given.takes)}'
        front, back = f'export function {REFERENCE.camel(case.given.name)}(', f'): {REFERENCE.given(case.given, JAVASCRIPT)};'
        # One with options of JavaScript alone is declared in several lines.
        line = f'{front}{said}{back}' if not case.given.written[JAVASCRIPT] else f'{front}\n  {case.given.takes}: '
        return unlike(case.wanted, came) or (None if line in declared and back in declared else f'no {line} in js/roskevad.d.ts')

    def names(call):
        return [said.partition('=')[0] for said in re.split('[,;] ', call.takes)]

    check_each([Case(call.name, call, names(call)) for call in calls.FUNCTIONS], fault_of)


def test_records_of_python():
    def fault_of(case):
        return unlike(case.wanted, list(inspect.signature(getattr(roskevad, case.given)).parameters))

    check_each(
        [Case(name, name, [field for field, _, _ in fields]) for name, fields in calls.RECORDS.items()],
        fault_of,
    )


# ---- JavaScript


def told_by_node():
    trials = [trial for _, trial, _ in trials_of(JAVASCRIPT)]
    classes = [kind.name for kind in REFERENCE.kinds(JAVASCRIPT)]
    return json.loads(ran('calls.mjs', json.dumps({'lines': calls.LINES, 'trials': trials, 'classes': classes})))


def fault_of_javascript(members, kind, call):
    name = call.renamed or REFERENCE.camel(call.name)
    if call.name == 'create':
        return None
    came = members[kind].get(name)
    if came is None:
        return 'the package has no such call'
    if call.takes is None:
        return None if 'isSet' in came and came['isSet'] >= call.is_set else 'it is no such value'
    plain, options = ([REFERENCE.camel(each) for each, _ in part] for part in REFERENCE.arguments(call))
    if call.written[JAVASCRIPT] == 'await editor.open(data, name?)':
        plain = ['data', 'name']
    if name == 'value' and kind == 'Tileset':
        plain, options = [*plain, 'flips'], []
    return unlike({'plain': plain, 'options': options}, came)


def test_javascript():
    """Names, arguments, what is thrown, and documents that are closed."""
    told = told_by_node()
    cases = [Case(f'{kind}.{call.name}', (kind, call), None) for kind, call in rows_of(JAVASCRIPT)]
    check_each(cases, lambda case: fault_of_javascript(told['members'], *case.given))
    named = {(kind, call.renamed or REFERENCE.camel(call.name)) for kind, call in rows_of(JAVASCRIPT)}
    more = {(kind, name) for kind, members in told['members'].items() for name in members} - named
    assert not more, f'{sorted(more)}: not in tools/calls.py'
    check_each(
        [Case(name, trial, wanted) for name, trial, wanted in trials_of(JAVASCRIPT)],
        lambda case: unlike(case.wanted, told['came'][case.given][: 2 if case.wanted[1] else 1] + [None] * (not case.wanted[1])),
    )
    fault = unlike(calls_of_documents(JAVASCRIPT), sorted(told['closed']))
    assert not fault, f'which calls of a closed document throw Closed: {fault}'


# ---- what is raised


def trials_of(language):
    """Of each fault of the table: its name, the expression that must raise it, the kind and the code."""
    for kind, call in rows_of(language):
        for word, trial in call.raises.items():
            expression = REFERENCE.trial_of(trial, language)
            code = re.search(r'\d+', word)
            name = calls.FAULTS[word][language] if word in calls.FAULTS else 'Refused'
            if expression:
                yield f'{kind}.{call.name}: {expression}', expression, [name, int(code[0]) if code else None]


def fault_of_trial(case):
    """How an expression raises something else in Python, or None."""
    with roskevad.Editor() as editor, roskevad.Editor() as second:
        editor.run_lines(calls.LINES)

        def after(*lines):
            return editor.run_lines(lines) is not None

        def many(line, count):
            return after(*(line.replace('#', str(at)) for at in range(count)))

        names = {
            'roskevad': roskevad, 'editor': editor, 'document': editor.active, 'after': after, 'many': many,
            'other': second.new('other', 1, 1, 1, 1, 'a.tsj'),
        }
        try:
            eval(case.given, names)
        except Exception as fault:
            code = getattr(fault, 'code', None) if case.wanted[1] else None
            return unlike(case.wanted, [type(fault).__name__, code])
    return 'it has raised nothing'


def test_what_python_raises():
    check_each([Case(*trial) for trial in trials_of(PYTHON)], fault_of_trial)


def calls_of_documents(language):
    """The names of those that a closed document answers by Closed."""
    quiet = {'name', 'editor', 'path', 'is_closed', 'layers', 'objects', 'properties', 'tilesets', 'stroke'}
    named = [call for kind, call in rows_of(language) if kind == 'Document' and call.name not in quiet]
    return sorted(call.renamed or REFERENCE.camel(call.name) if language == JAVASCRIPT else call.name for call in named)


GIVEN = {'stamp': (1, 0, 0, [[1]]), 'erase': (1, 0, 0, 1, 1), 'macro': ('a',), 'save': ('a.tmj',), 'watch': (print,)}


def fault_of_closed(case):
    document, name = case.given
    try:
        came = getattr(document, name)
        count = [default for _, default in takes(next(call for call in calls.DOCUMENT.calls if call.name == name))].count(False)
        given = {**GIVEN, 'difference': (document,)}
        came = came(*given.get(name, (1, 0, 0, 1)[:count]))
        came.__enter__()
    except roskevad.Closed:
        return None
    return f'it gives {came!r}'


def test_closed_documents_in_python():
    """Also where another one was opened under the name, by a call, by lines, or by bytes."""
    for close in ('document.discard()', 'editor.step("discard town")', 'editor.step_bytes(b"discard town")',
                  'editor.run_lines(["discard town", "new town 1 1 1 1 a"])', 'editor.close()'):
        with roskevad.Editor() as editor:
            editor.run_lines(calls.LINES)
            document = editor.active
            eval(close)
            cases = [Case(f'{close}: {name}', (document, name), None) for name in calls_of_documents(PYTHON)]
            check_each(cases, fault_of_closed)


# ---- what the package says of itself


def test_texts_of_python():
    """Each call's text names what it raises, as the table does."""

    def fault_of(case):
        kind, call = case.given
        told = inspect.getdoc(member_of(kind, call)) or ''
        names, codes = REFERENCE.raised(call, PYTHON)
        wanted = {*names, *(['Refused'] if codes else [])}
        missing = sorted(name for name in wanted if name not in told)
        return f'its text does not name {", ".join(missing)}' if missing else None

    cases = [Case(f'{kind}.{call.name}', (kind, call), None) for kind, call in rows_of(PYTHON) if call.name not in ('create', 'delete')]
    check_each(cases, fault_of)
