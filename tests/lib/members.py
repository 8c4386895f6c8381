# SPDX-License-Identifier: MIT OR Apache-2.0
"""What each line of own members does to a map, plainly: on the tree of its JSON text, by the rules
of docs/session-lines.md. Objects, layers, tilesets and the map have such lines."""
from lib.asides import COORDINATE, COORDINATES, ELSEWHERE, OBJECT, RESERVED, stand_in
from lib.edits import EDITS, LAST_ID, MOST_PIXELS, Edit, find_owner, find_tileset, see
from lib.json_words import is_whole, json_word, object_word, sets_fractions_aside, tree_of
from lib.maps import layers_in, objects_in

MOST_VALUE, MOST_TILE_SIDE = 4_294_967_295, 65_535
# Of each kind of owner the members that other lines change, and the one that no line may name.
OTHERS = {
    'object': ('id', 'properties', 'roskevad'),
    'layer': (
        'id', 'type', 'properties', 'data', 'chunks', 'startx', 'starty', 'objects', 'layers',
        'width', 'height', 'encoding', 'compression', 'roskevad',
    ),
    'tileset': ('firstgid', 'roskevad'),
    'map': (
        'width', 'height', 'infinite', 'chunks', 'data', 'objects', 'layers', 'tilesets',
        'properties', 'type', 'version', 'roskevad',
    ),
}


# ---- own members are as a file may have them


def see_object(item, _):
    for name in ('x', 'y', 'width', 'height'):
        see(is_whole(item.get(name, 0)), 63)
        see(abs(item.get(name, 0)) <= MOST_PIXELS, 68)
    see(isinstance(item.get('name', ''), str), 63)
    see(isinstance(item.get('visible', True), bool), 63)
    see(is_whole(item.get('gid', 0)), 63)
    see(0 <= item.get('gid', 0) <= MOST_VALUE, 68)


def see_layer(layer, _):
    """A layer has a name and is visible or not, whether or not its file says so."""
    see(isinstance(layer.setdefault('name', ''), str), 63)
    see(isinstance(layer.setdefault('visible', True), bool), 63)


def see_tileset(tileset, _):
    see(isinstance(tileset.get('source', ''), str), 63)


def see_map(tree, draft):
    for name, most in (
        ('tilewidth', MOST_TILE_SIDE),
        ('tileheight', MOST_TILE_SIDE),
        ('nextlayerid', LAST_ID),
        ('nextobjectid', LAST_ID),
    ):
        see(name in tree, 62)
        see(is_whole(tree[name]), 63)
        see(1 <= tree[name] <= most, 68)
    see(all(layer['id'] < tree['nextlayerid'] for layer in layers_in(draft.tree['layers'])), 68)
    see(all(item['id'] < tree['nextobjectid'] for item in objects_in(draft.tree)), 68)


SEEN = {'object': see_object, 'layer': see_layer, 'tileset': see_tileset, 'map': see_map}


# ---- the notes of an object's coordinates


def moved_by(tree, name):
    """By how many pixels objects were moved when an infinite map was made finite."""
    note = tree.get(RESERVED, {}).get('infinite', {})
    return note.get({'x': 'movedx', 'y': 'movedy'}.get(name), 0)


def notes_of(tree, said):
    """The notes of the coordinates that a JSON object says and that are fractions: of what they are where the map is saved."""
    noted = [(name, said[name], moved_by(tree, name)) for name in COORDINATES if isinstance(said.get(name), float)]
    # A sum with 0 would be 0 of -0.
    return {name: stand_in(number + by if by else number) for name, number, by in noted}


def note_anew(item, names, notes):
    """Gives an object the notes of the coordinates of these names, in place of those that it has of them."""
    if not sets_fractions_aside() or not {*names} & {*COORDINATES}:
        return
    kept = {name: note for name, note in item.pop(RESERVED, {}).items() if name not in names}
    if kept or notes:
        item[RESERVED] = {**kept, **notes}


# ---- edits


def owner_of(draft, owner):
    """The kind of the owner that a line names, and the owner."""
    kind, _, number = owner.partition(':')
    if kind == 'tileset':
        return kind, find_tileset(draft.tree, int(number))
    return kind, find_owner(draft.tree, owner)


def set_member(draft, owner, name, text):
    kind, item = owner_of(draft, owner)
    see(name not in OTHERS[kind], 41)
    is_coordinate = kind == 'object' and name in COORDINATES
    item[name] = json_word(text, COORDINATE if is_coordinate else ELSEWHERE)
    if kind == 'object':
        note_anew(item, [name], notes_of(draft.tree, {name: tree_of(text)}))
    SEEN[kind](item, draft)


def put_members(draft, owner, text):
    kind, item = owner_of(draft, owner)
    members = object_word(text, OBJECT if kind == 'object' else ELSEWHERE)
    members.pop(RESERVED, None)
    see(not any(name in OTHERS[kind] for name in members), 41)
    item.update(members)
    if kind == 'object':
        note_anew(item, members, notes_of(draft.tree, tree_of(text)))
    SEEN[kind](item, draft)


def remove_member(draft, owner, name):
    kind, item = owner_of(draft, owner)
    see(name not in OTHERS[kind], 41)
    see(name in item, 42)
    del item[name]
    if kind == 'object':
        note_anew(item, [name], {})
    SEEN[kind](item, draft)


MEMBER_EDITS = {
    'member set': Edit(set_member, (str,) * 3, 'Set Member', True, 2),
    'member put': Edit(put_members, (str,) * 2, 'Set Members', True, 1),
    'member remove': Edit(remove_member, (str,) * 2, 'Remove Member', True),
}


def read_members():
    """From now on the model reads lines of own members too."""
    EDITS.update(MEMBER_EDITS)
