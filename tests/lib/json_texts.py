# SPDX-License-Identifier: MIT OR Apache-2.0
"""What Python's json module tells of the text of a map, for test_broken_maps.py: whether it is
JSON, has a fraction or is no map, as docs/map-files.md says, and what must be written for a map
that was opened."""
import functools
import json
import math
import re

from lib.maps import layers_in, text_of


@functools.lru_cache(maxsize=4096)
def number_of(text):
    """A whole number as the tree of a map has it, or a float for any other. Too great a float is no
    JSON."""
    value = float(text)
    if math.isinf(value):
        raise ValueError(text)
    is_whole = re.fullmatch('0|-?[1-9][0-9]*', text) and -(2**63) <= int(text) < 2**64
    return int(text) if is_whole else value


def no_json(text):
    raise ValueError(text)


def depth_of(text):
    """How deep the arrays and objects of a text of JSON stand in one another."""
    depth = deepest = 0
    for bracket in re.findall(r'"(?:[^"\\]|\\.)*"|[][{}]', text):
        depth += (bracket in '[{') - (bracket in ']}')
        deepest = max(deepest, depth)
    return deepest


def has_half_sign(text):
    """Whether a text of JSON has one half of a pair of escapes without the other."""
    pairs = json.loads(text, object_pairs_hook=list)
    return any('\ud800' <= sign <= '\udfff' for sign in json.dumps(pairs, ensure_ascii=False))


def tree_of(data):
    """The tree of a text of JSON, or None."""
    try:
        text = data.decode()
        tree = json.loads(text, parse_int=number_of, parse_float=number_of, parse_constant=no_json)
        is_deep = text.count('[') + text.count('{') > 127 and depth_of(text) > 127
        return None if is_deep or ('\\u' in text and has_half_sign(text)) else (tree,)
    except (ValueError, RecursionError):
        return None


def has_fraction(value):
    if isinstance(value, dict):
        return any(map(has_fraction, value.values()))
    if isinstance(value, list):
        return any(map(has_fraction, value))
    return isinstance(value, float)


def code_of(tree):
    """The refusal of a tree that is no map or has a fraction, or None. The version may be any
    number."""
    is_object = isinstance(tree, dict)
    others = (
        {
            name: value
            for name, value in tree.items()
            if name != 'version' or not isinstance(value, float)
        }
        if is_object
        else tree
    )
    if has_fraction(others):
        return 61
    return None if is_object and tree.get('type') == 'map' else 69


def without_empty_properties(owner):
    if owner.get('properties') == []:
        del owner['properties']
    for entry in owner.get('properties', []):
        entry.setdefault('type', 'string')


def text_behind(tree):
    """The text that must be written for the tree of a map that was opened: what is absent and means
    something is there."""
    tree.update(version='1.10', infinite=False)
    without_empty_properties(tree)
    for layer in layers_in(tree['layers']):
        layer.setdefault('name', '')
        layer.setdefault('visible', True)
        without_empty_properties(layer)
        if layer['type'] == 'tilelayer':
            layer.update(width=tree['width'], height=tree['height'])
            layer.pop('compression', None)
            if layer.get('encoding') == 'base64':
                layer['data'] = re.sub('[ \t\r\n]', '', layer['data'])
            else:
                layer.pop('encoding', None)
        for item in layer['objects'] if layer['type'] == 'objectgroup' else []:
            without_empty_properties(item)
    return text_of(tree)
