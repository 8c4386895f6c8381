# SPDX-License-Identifier: MIT OR Apache-2.0
"""A plain model of the editor: it keeps lists of whole maps, as texts, and tells the reply to each
line that can be read.

    editor = Editor()
    editor.step('new town 4 3 16 16 town.tsj')     # 'ok 0/0 clean 0'

It is slow, and has no other idea in it than docs/session-lines.md: a step is the map before it and
the map after it, an undo gives back the one and a redo the other. A `Play` is a run of the program
whose replies the model tells."""
import json
from dataclasses import dataclass, field
from typing import Optional

from lib.edits import Refused, edited, find_layer, read_edit, see, tileset_of
from lib.maps import cells_of, new_map, text_of, tile_reply, written
from lib.refusals import refusal
from lib.sessions import Run

MOST_LEVELS, GREATEST_LIMIT, MOST_SIDE = 64, 1_000_000, 65_535


@dataclass(frozen=True)
class State:
    """A map's text, and the cells that are selected."""

    text: bytes
    selection: frozenset = frozenset()

    def tree(self):
        return json.loads(self.text)


@dataclass
class Step:
    """What can be undone: its texts, what a line with a `+` must share with it, and the states
    before and after."""

    texts: tuple
    tag: Optional[tuple]
    before: State
    after: State


@dataclass
class Level:
    """A macro that is open: its texts, the state before it, and its steps so far."""

    texts: tuple
    before: State
    steps: list = field(default_factory=list)


class Document:
    """An open map with its steps, of which `index` are done. `clean` is the index that counts as
    saved, or None."""

    def __init__(self, text, limit=0):
        self.now, self.limit = State(text), limit
        self.steps, self.levels = [], []
        self.index, self.clean = 0, 0

    @property
    def tree(self):
        return self.now.tree()

    def is_clean(self):
        return not self.levels and self.clean == self.index

    def status(self):
        count = len(self.steps) + (len(self.levels) > 0)
        return (
            f'ok {self.index}/{count} {"clean" if self.is_clean() else "dirty"} {len(self.levels)}'
        )

    def inner_steps(self):
        """The steps of the innermost macro, or those of the list that are done."""
        return self.levels[-1].steps if self.levels else self.steps[: self.index]

    def cut(self):
        """Drops the steps that could be made again."""
        del self.steps[self.index :]
        if self.clean is not None and self.clean > self.index:
            self.clean = None

    def add(self, step):
        """Adds a step to the innermost macro, or to the list, which then loses its oldest steps
        beyond the limit."""
        if self.levels:
            self.levels[-1].steps.append(step)
            return
        self.steps.append(step)
        dropped = max(0, len(self.steps) - self.limit) if self.limit else 0
        del self.steps[:dropped]
        self.index = len(self.steps)
        if self.clean is not None:
            self.clean = self.clean - dropped if self.clean >= dropped else None

    def take_step_before(self, line):
        """Takes out the step that a line merges with, or gives None."""
        steps = self.levels[-1].steps if self.levels else self.steps
        may_merge = line.follows and steps and (self.levels or self.clean != self.index)
        if not may_merge or steps[-1].tag != line.tag():
            return None
        step = steps.pop()
        self.index = self.index if self.levels else len(steps)
        return step

    def edit(self, line):
        draft = edited(self.now.text, self.now.selection, line)
        after = State(text_of(draft.tree), frozenset(draft.selection))
        if not self.levels:
            self.cut()
        step = self.take_step_before(line) or Step(line.edit.texts(), line.tag(), self.now, after)
        step.after = self.now = after
        if step.before != after or not line.edit.vanishes:
            self.add(step)

    def begin(self, texts):
        see(len(self.levels) < MOST_LEVELS, 24)
        if not self.levels:
            self.cut()
        self.levels.append(Level(texts, self.now))

    def end(self):
        see(self.levels, 23)
        level = self.levels.pop()
        self.add(Step(level.texts, None, level.before, self.now))

    def go(self, index):
        """Undoes or redoes up to an index."""
        for at in range(self.index, index):
            self.now = self.steps[at].after
        for at in range(self.index, index, -1):
            self.now = self.steps[at - 1].before
        self.index = index


class Editor:
    """Documents by name, of which one may be active, and files by name. The files can all be
    opened."""

    def __init__(self, files=(), limit=0):
        self.files, self.limit = dict(files), limit
        self.documents, self.active = {}, None

    def step(self, line):
        """The reply to a line, or None for a quiet one."""
        if not line.strip(' ') or line.startswith('#'):
            return None
        try:
            return self.reply(line)
        except Refused as refused:
            return refusal(refused.code)

    def reply(self, line):
        word, _, rest = line.partition(' ')
        told = self.on_documents(word, rest)
        if told is not None:
            return told
        if word in ('undotext', 'redotext') and not self.active:
            return 'text'
        see(self.active, 10)
        document, edit = self.document, read_edit(line)
        if edit:
            document.edit(edit)
            return document.status()
        told = self.told(document, word, rest)
        if told is not None:
            return told
        self.on_history(document, word, rest)
        return document.status()

    @property
    def document(self):
        return self.documents[self.active]

    def status(self):
        return self.document.status() if self.active else 'ok none clean'

    # ---- lines on documents
    def on_documents(self, word, rest):
        """The reply to a line on documents, or None for any other."""
        if word == 'list':
            return ''.join(
                ['docs', *(f' {"*" * (name == self.active)}{name}' for name in self.documents)]
            )
        acts = {
            'new': self.new,
            'open': self.open,
            'use': self.use,
            'close': self.close,
            'discard': self.discard,
            'status': lambda: None,
        }
        if word not in acts:
            return None
        acts[word](*(rest.split(' ', 5) if rest else []))
        return self.status()

    def new(self, name, *rest):
        *sizes, source = rest
        width, height, *sides = sizes = list(map(int, sizes))
        see(name not in self.documents, 11)
        is_right = (
            min(sizes) >= 1
            and max(width, height) <= 4096
            and width * height <= 1_048_576
            and max(sides) <= MOST_SIDE
        )
        see(is_right, 39)
        self.add(name, text_of(new_map(*sizes, source)))

    def open(self, name, file):
        see(name not in self.documents, 11)
        see(file in self.files, 50)
        self.add(name, written(self.files[file]))

    def add(self, name, text):
        self.documents[name] = Document(text, self.limit)
        self.active = name

    def use(self, name):
        see(name == '-' or name in self.documents, 12)
        self.active = None if name == '-' else name

    def close(self, name):
        see(name in self.documents, 12)
        see(self.documents[name].is_clean(), 13)
        self.discard(name)

    def discard(self, name):
        see(name in self.documents, 12)
        del self.documents[name]
        self.active = None if self.active == name else self.active

    # ---- lines on the history of the active document
    def on_history(self, document, word, rest):
        if word in ('undo', 'redo', 'goto', 'clean'):
            see(not document.levels, 20)
        if word in ('undo', 'redo', 'goto'):
            see(word != 'undo' or document.index > 0, 21)
            see(word != 'redo' or document.index < len(document.steps), 22)
            index = {'undo': document.index - 1, 'redo': document.index + 1}.get(word)
            document.go(min(int(rest), len(document.steps)) if index is None else index)
        elif word == 'begin':
            text, divider, action = rest.partition(' || ')
            document.begin((text, action if divider else text))
        elif word == 'end':
            document.end()
        elif word == 'limit':
            see(not document.steps and not document.levels, 25)
            see(int(rest) <= GREATEST_LIMIT, 39)
            document.limit = int(rest)
        elif word == 'clear':
            document.steps, document.levels, document.index, document.clean = [], [], 0, 0
        else:
            document.clean = {'clean': document.index, 'dirty': None}[word]

    # ---- lines that look
    def told(self, document, word, rest):
        """The reply to a line that looks or saves, or None for any other."""
        if word == 'show':
            return 'map ' + document.now.text.decode()
        if word == 'tile':
            return self.tile(document, *map(int, rest.split(' ')))
        if word == 'save':
            return self.save(document, rest)
        steps = [step.texts for step in document.steps] + [
            level.texts for level in document.levels[:1]
        ]
        if word == 'text':
            see(int(rest) < len(steps), 39)
            return f'text {steps[int(rest)][0]}'
        if word in ('undotext', 'redotext'):
            at = document.index - (word == 'undotext')
            return (
                f'text {steps[at][1]}' if 0 <= at < len(steps) and not document.levels else 'text'
            )
        return None

    def tile(self, document, number, x, y):
        tree = document.tree
        layer = find_layer(tree, number, 'tilelayer')
        see(0 <= x < tree['width'] and 0 <= y < tree['height'], 32)
        value = cells_of(layer)[y * tree['width'] + x]
        return tile_reply(value, tileset_of(tree, value))

    def save(self, document, file):
        see(not document.levels, 20)
        document.clean = document.index
        self.files[file] = document.now.text
        return f'saved {file} {len(document.now.text)}'


class Play(Run):
    """A run of the program whose replies and files a model of the editor tells."""

    def __init__(self, name, before=()):
        super().__init__(name, before)
        self.editor = Editor(before)

    def put(self, name, data):
        super().put(name, data)
        self.editor.files[name] = data

    def hear(self, *lines):
        """The program hears these lines, and must answer each as the model does. Gives the last
        reply."""
        rows = [(line, self.editor.step(line)) for line in lines]
        self.say_all(rows)
        self.after = dict(self.editor.files)
        return rows[-1][1]

    @property
    def document(self):
        """The active document of the model."""
        return self.editor.document
