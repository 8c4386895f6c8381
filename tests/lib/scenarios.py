# SPDX-License-Identifier: MIT OR Apache-2.0
"""Calls of documents in both packages, and the lines that they stand for: documents, maps, steps and selections are the same then."""
import json
import re
import subprocess
import sys
from dataclasses import dataclass, field
from typing import Any, List, Tuple

from .cases import Case, check_each, unlike
from .places import TESTS, TOP

sys.path.insert(0, str(TOP / 'python'))
sys.path.insert(0, str(TOP / 'tools'))
import roskevad  # noqa: E402
from calls import LINES  # noqa: E402


@dataclass
class Scenario:
    """Calls in each language, the lines that they stand for, and what the expressions tell behind them."""

    name: str
    python: str
    javascript: str
    lines: List[str]
    values: List[Tuple[str, str, Any]] = field(default_factory=list)
    before: List[str] = field(default_factory=lambda: LINES)


def plain(name, calls, lines, **more):
    """A scenario whose calls are the same in both, but for the case of their names, and look-ups by an id in braces."""
    python, javascript = (re.sub(r'\{(\d)\}', form, calls) for form in (r'[\1]', r'.get(\1)'))
    return Scenario(name, python.replace('; ', '\n'), javascript, lines, **more)


def state_of(editor):
    """How the active document stands, as lines tell it."""
    status = editor.step('status')
    count = 0 if status == 'ok none clean' else int(status.split(' ')[1].split('/')[1])
    steps = [[editor.step(f'text {place}'), editor.action_text(place), editor.is_macro(place)] for place in range(count)]
    shown = '' if status == 'ok none clean' else editor.step('show')
    return [editor.step('list'), status, shown, steps, [list(run) for run in editor.selection()]]


def wanted_of(scenario):
    """How the lines leave the editor."""
    with roskevad.Editor() as editor:
        editor.run_lines([*scenario.before, *scenario.lines])
        return state_of(editor), [wanted for _, _, wanted in scenario.values]


def fault_in_python(case):
    scenario = case.given
    with roskevad.Editor() as editor:
        editor.run_lines(scenario.before)
        names = {'roskevad': roskevad, 'editor': editor, 'document': editor.active}
        exec(scenario.python, names)
        told = [eval(value, names) for value, _, _ in scenario.values]
        return unlike(wanted_of(scenario), (state_of(editor), told))


def check_in_python(scenarios):
    check_each([Case(scenario.name, scenario, None) for scenario in scenarios], fault_in_python)


def check_in_javascript(scenarios):
    given = [
        {'lines': each.before, 'code': each.javascript, 'values': [value for _, value, _ in each.values]} for each in scenarios
    ]
    done = subprocess.run(
        ['node', TESTS / 'module' / 'scenarios.mjs'], input=json.dumps(given), capture_output=True, text=True, cwd=TOP
    )
    assert done.returncode == 0, done.stderr[-2000:]
    cases = [Case(each.name, each, came) for each, came in zip(scenarios, json.loads(done.stdout))]
    check_each(cases, lambda case: unlike(wanted_of(case.given), (case.wanted['state'], case.wanted['told'])))
