# SPDX-License-Identifier: MIT OR Apache-2.0
"""Hears which lines calls of the Python package say, and makes the document that they are about."""


class Said:
    """The lines that calls of a document say, until the end of a `with`."""

    def __init__(self, editor):
        self.editor, self.lines = editor, []

    def __enter__(self):
        self.reply_to = self.editor._reply_to
        self.editor._reply_to = self.hear
        return self.lines

    def hear(self, line, call):
        self.lines.append(line)
        return self.reply_to(line, call)

    def __exit__(self, *_):
        self.editor._reply_to = self.reply_to


def made(editor):
    """A document with two steps, which has a tile layer, and a layer of things with a door."""
    document = editor.new('a', 4, 3, 16, 16, 'a.tsj')
    document.layers.add('object', 'Things').objects.add('door', 3, 4)
    return document
