# SPDX-License-Identifier: MIT OR Apache-2.0
"""What is noted of a property of a class that was read from XML: the types of its members, which its JSON does not say. Where a member has no
note, it is what its value shows."""
from typing import Any

from .tiled_maps import XML_NOTE, Members, drawn

_TEXT = 'string'


def keep_notes_of_classes(tree: Members) -> None:
    """Takes the notes out of the outline of a map that are of the file, and has those of classes name the type of each member that is no text."""
    is_noted = tree.pop(XML_NOTE, None) is not None
    for layer in drawn(tree['layers']):
        layer.pop(XML_NOTE, None)
        for owner in (layer, *(layer['objects'] if layer['type'] == 'objectgroup' else ())):
            _complete(owner, is_noted)
    _complete(tree, is_noted)


def _complete(owner: Members, is_noted: bool) -> None:
    if is_noted and 'properties' in owner:
        owner['properties'] = [with_note(each, _whole_note(each['value'], note_in(each))) if isinstance(each['value'], dict) else each
                               for each in owner['properties']]


def _whole_note(value: Members, note: Members) -> Members:
    """What is noted of the members of a class, with the type of each that is no text."""
    found = {name: _whole_noted(inner, noted(note, name)) for name, inner in value.items()}
    return {name: own for name, own in found.items() if own}


def _whole_noted(value: Any, own: Members) -> Members:
    kind = own.get('type') or _shown_type(value)
    typed = own if kind == _TEXT else {**own, 'type': kind}
    return with_note(typed, _whole_note(value, note_in(own))) if isinstance(value, dict) else typed


def _shown_type(value: Any) -> str:
    if isinstance(value, bool):
        return 'bool'
    if isinstance(value, (int, float)):
        return 'int' if float(value).is_integer() else 'float'
    return 'class' if isinstance(value, dict) else _TEXT


def with_kept_note(new: Members, old: Members) -> Members:
    """A property of a class with what is noted of an old one: of each member whose value is of the same type still."""
    value, was = new.get('value'), old.get('value')
    return with_note(new, _kept(value, was, note_in(old)) if isinstance(value, dict) and isinstance(was, dict) else {})


def with_some_note(new: Members, old: Members) -> Members:
    """The same, where nothing is noted of the property itself, as of one in JSON."""
    return new if note_in(new) else with_kept_note(new, old)


def _kept(value: Members, was: Members, note: Members) -> Members:
    found = {name: noted(note, name) for name in note if name in value and name in was and _fits(value[name], was[name], noted(note, name))}
    return {name: with_note(own, _kept(value[name], was[name], note_in(own))) if isinstance(value[name], dict) else own for name, own in found.items()}


def _fits(value: Any, was: Any, own: Members) -> bool:
    """Whether a new value is of the type that is noted."""
    kinds = {_shown_type(value), _shown_type(was)}
    return len(kinds) == 1 or own.get('type') == 'float' and kinds == {'int', 'float'}


def note_in(members: Members) -> Members:
    """The note of a property, or of a member of a class by its own note: what is noted of each of its members."""
    note = members.get(XML_NOTE)
    return note if isinstance(note, dict) else {}


def noted(note: Members, name: str) -> Members:
    """What is noted of a member: its type but where it is a text, the name of its class, and a note of its own."""
    found = note.get(name)
    return found if isinstance(found, dict) else {}


def type_noted(note: Members, name: str) -> str:
    return str(noted(note, name).get('type', _TEXT))


def with_note(members: Members, note: Members) -> Members:
    """A property with a note, or without one where nothing is noted."""
    found = {name: value for name, value in members.items() if name != XML_NOTE}
    return {**found, XML_NOTE: note} if note else found
