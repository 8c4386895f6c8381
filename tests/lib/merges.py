# SPDX-License-Identifier: MIT OR Apache-2.0
"""What must come of a merge of two maps, by their files alone: a table of what each map says, and the faults of a merged map by four such
tables. It shares nothing with the merge: no call of the package, no id that it has given, no word of it but what it tells to be in conflict."""
import base64
import collections
import gzip
import json
import struct
import zlib

FLAGS = 0xF000_0000
SHAPES = {'ellipse', 'point', 'polygon', 'polyline', 'text', 'gid', 'template'}
NO_MEMBERS = {'id', 'layers', 'objects', 'data', 'chunks', 'properties', 'width', 'height', 'startx', 'starty', 'encoding', 'compression'}
OF_THE_FILE = {'layers', 'tilesets', 'properties', 'width', 'height', 'nextlayerid', 'nextobjectid', 'version', 'tiledversion', 'compressionlevel'}


def plain(value):
    if isinstance(value, float):
        return int(value) if value.is_integer() else value
    if isinstance(value, list):
        return [plain(each) for each in value]
    return {name: plain(each) for name, each in value.items()} if isinstance(value, dict) else value


def said(value):
    """A value as a text: true is not 1, and 2.0 is 2."""
    return json.dumps(plain(value), sort_keys=True)


def layers_of(tree):
    """All layers, each with the group that it stands in, or None."""

    def walk(layers, group):
        for layer in layers:
            yield layer, group
            if layer['type'] == 'group':
                yield from walk(layer['layers'], layer)

    return walk(tree['layers'], None)


def values_of(layer):
    """The places and values of the cells of a layer that are not empty."""
    parts = layer['chunks'] if 'chunks' in layer else [{'x': 0, 'y': 0, 'width': layer['width'], 'data': layer['data']}]
    for part in parts:
        data = part['data']
        if isinstance(data, str):
            packed = base64.b64decode(data)
            unpack = {'zlib': zlib.decompress, 'gzip': gzip.decompress}.get(layer.get('compression'), bytes)
            data = [value for value, in struct.iter_unpack('<I', unpack(packed))]
        for at, value in enumerate(data):
            if value:
                yield part['x'] + at % part['width'], part['y'] + at // part['width'], value


class Table:
    """A map as a table: of each layer, object and tileset what it says, as texts, by names. All that was moved with the size of the map
    stands where it stood before."""

    def __init__(self, tree, offset=(0, 0), known=(), lost=()):
        """`known` are the ids of the objects and layers of the map that both began with, `lost` those of objects that are not to be there."""
        self.tree, self.offset, self.known, self.lost = tree, offset, known, lost
        self.tilesets = sorted(((each['firstgid'], each.get('source', each.get('name'))) for each in tree['tilesets']), reverse=True)
        self.objects = {each['id']: each for layer, _ in layers_of(tree) for each in layer.get('objects', [])}
        self.rows, self.cells, self.children = {}, {}, collections.defaultdict(list)
        self.rows['map'] = {**self.members(tree, OF_THE_FILE), **self.properties(tree)}
        for layer, group in layers_of(tree):
            self.note_layer(layer, group)
        self.named = {each.get('source', each.get('name')): self.members(each, {'firstgid'}) for each in tree['tilesets']}

    def note_layer(self, layer, group):
        key = 'layer', layer['id']
        assert key not in self.rows, f'{key} stands there twice'
        holder = 'map' if group is None else ('layer', group['id'])
        self.children[holder].append(key)
        self.rows[key] = {'parent': self.place(group), **self.members(layer, NO_MEMBERS), **self.properties(layer)}
        if layer['type'] == 'tilelayer':
            self.cells[key] = {(x - self.offset[0], y - self.offset[1]): self.tile(value) for x, y, value in values_of(layer)}
        for each in layer.get('objects', []):
            this = 'object', each['id']
            assert this not in self.rows, f'{this} stands there twice'
            self.children[key].append(this)
            self.rows[this] = {'parent': self.place(layer), **self.object(each), **self.properties(each)}

    def place(self, layer):
        return 'map' if layer is None else said(['layer', layer['id']]) if ('layer', layer['id']) in self.known else said(['new', layer['name']])

    def members(self, owner, without):
        found = {}
        for name, value in owner.items():
            if name not in without:
                self.note(found, name, value)
        return found

    def note(self, found, name, value):
        if isinstance(value, dict) and name != 'roskevad':
            for each, inner in value.items():
                self.note(found, f'{name}.{each}', inner)
        else:
            found[name] = said(value)

    def object(self, each):
        moved = {name: each[name] - by * self.tree[side] for name, by, side in zip('xy', self.offset, ('tilewidth', 'tileheight')) if name in each}
        tile = {'gid': self.tile(each['gid'])} if 'gid' in each else {}
        return self.members({**each, **moved, **tile}, {'id', 'properties'})

    def tile(self, value):
        """A tile by its tileset."""
        first, name = next((each for each in self.tilesets if each[0] <= value & ~FLAGS), (0, None))
        return name, (value & ~FLAGS) - first, value & FLAGS

    def properties(self, owner):
        """Properties; the members of a class each for itself."""
        found = {}
        for each in owner.get('properties', []):
            name, value = f'property {each["name"]}', self.meant(each)
            found[name] = said({**each, 'value': 'of a class' if isinstance(value, dict) else value})
            if isinstance(value, dict):
                for inner in value:
                    self.note(found, f'{name}.{inner}', value[inner])
        return found

    def meant(self, each):
        """The value of a property; of one that means a new object what that is, and 0 of one that means none that is there or was."""
        value = each['value']
        if each.get('type') != 'object' or ('object', value) in self.known:
            return value
        if value not in self.objects or value in self.lost:
            return 0
        looks = self.object(self.objects[value])
        return ['new', *(looks.get(name) for name in ('name', 'x', 'y'))]

    def whole(self, key):
        """All of a layer or an object, but what stands in it, as a text."""
        return said([key[0], self.rows[key], sorted(map(list, self.cells.get(key, {}).items()), key=str)])

    def above(self, key):
        """All that holds a layer or an object."""
        found, holders = [], {child: holder for holder, children in self.children.items() for child in children}
        while holders.get(key, 'map') != 'map':
            key = holders[key]
            found.append(key)
        return found


class Checked:
    """A merge, by the tables of its four maps, and by what it tells to be in conflict."""

    def __init__(self, base, ours, theirs, merged, told):
        """`told` are pairs of what is in conflict and its name, as ('object', 7), 'x'; of cells the places, too."""
        self.base, self.ours, self.theirs, self.merged = base, ours, theirs, merged
        self.told = told
        # What was found to be in conflict, and may be told.
        self.met = set()
        self.faults = []

    def fault(self, *words):
        self.faults.append(' '.join(map(str, words)))

    def is_told(self, key, name):
        """Whether a conflict is told, which is one then."""
        found = [each for each in self.told if each[0] == key and (each[1] == name or name.startswith(f'{each[1]}.'))]
        self.met.update(found)
        return bool(found)

    def want_told(self, key, name, why):
        if not self.is_told(key, name):
            self.fault('not told:', key, name, why)

    def found(self):
        """All that is wrong, as texts."""
        lost = {key[1] for key in self.lacking() if key[0] == 'object'}
        self.theirs = Table(self.theirs.tree, self.theirs.offset, self.theirs.known, lost) if lost else self.theirs
        for key in ['map', *(each for each in self.ours.rows if each != 'map')]:
            self.see_ours(key)
        self.see_removed_by_ours()
        self.see_added_by_theirs()
        self.see_tilesets()
        self.see_orders()
        extra = [each for each in self.told if each not in self.met]
        if extra:
            self.fault('told, and no conflict:', extra[:3])
        return self.faults

    # ---- things that ours has
    def see_ours(self, key):
        sides = self.base, self.ours, self.theirs
        in_base, _, in_theirs = (key in side.rows for side in sides)
        is_there = key in self.merged.rows
        if in_base and not in_theirs:
            self.see_removed_by_theirs(key, is_there)
        elif not is_there:
            self.fault('lost:', key)
        elif not in_base or not in_theirs:
            if self.merged.whole(key) != self.ours.whole(key):
                self.fault('added by ours, and not as it was:', key)
        else:
            self.see_members(key)
            if key in self.ours.cells:
                self.see_cells(key)

    def is_changed(self, key, side):
        """Whether a side has changed it, but for cells that it has cut off with the edge of the map."""
        old, new = self.base.cells.get(key, {}), side.cells.get(key, {})
        return side.rows[key] != self.base.rows[key] or any(old.get(at) != new.get(at) for at in {**old, **new} if self.is_in(side, at))

    def see_removed_by_theirs(self, key, is_there):
        if self.is_changed(key, self.ours):
            self.want_told(key, 'removed', 'ours has changed it, theirs removed it')
            if not is_there or self.merged.rows[key] != self.ours.rows[key]:
                self.fault('ours has changed it, theirs removed it, and it is not as ours has it:', key)
        elif is_there:
            self.want_told(key, 'removed', 'theirs removed it, and it is there')
            if not self.merged.children.get(key):
                self.fault('theirs removed it, and it is there, with nothing in it:', key)

    def see_members(self, key):
        rows = [side.rows[key] for side in (self.base, self.ours, self.theirs, self.merged)]
        names = {*rows[0], *rows[1], *rows[2], *rows[3]}
        kinds = [SHAPES & {name.split('.')[0] for name in row} for row in rows]
        if key[0] == 'object' and len({*map(frozenset, kinds[:3])}) == 3:
            self.want_told(key, 'shape', 'both have changed it')
            names = {name for name in names if name.split('.')[0] not in SHAPES or self.see_is_ours(key, name, rows)}
        names -= self.see_whole_properties(key, rows, names)
        for name in sorted(names):
            base, ours, theirs, merged = (row.get(name) for row in rows)
            if name == 'parent' and ours == base != theirs and merged == ours:
                self.see_not_moved(key)
                continue
            wanted = ours if theirs in (base, ours) else theirs
            if theirs not in (base, ours) and (ours != base or name == 'gid' and self.has_no_tileset(json.loads(theirs)[0])):
                self.want_told(key, 'moved' if name == 'parent' else name, f'{base} {ours} {theirs}')
                wanted = ours
            if merged != wanted:
                self.fault(key, name, 'base', base, 'ours', ours, 'theirs', theirs, 'is', merged)

    def see_whole_properties(self, key, rows, names):
        """Properties that are told to be in conflict as a whole: both sides have changed them, and they are as ours has them."""
        seen = set()
        for name in [each[1] for each in self.told if each[0] == key and each[1] in names and each[1].startswith('property ')]:
            of_it = {each for each in names if each == name or each.startswith(f'{name}.')}
            base, ours, theirs, merged = ([row.get(each) for each in sorted(of_it)] for row in rows)
            is_one = len({row.get(name) for row in rows[:3]}) == 1 and len(of_it) > 1
            if ours != base != theirs != ours and not is_one:
                self.met.add((key, name))
            if merged != ours:
                self.fault(key, name, 'in conflict, and not as ours has it')
            seen |= of_it
        return seen

    def see_is_ours(self, key, name, rows):
        if rows[1].get(name) != rows[3].get(name):
            self.fault(key, name, 'in conflict, and not as ours has it')

    def has_no_tileset(self, name):
        return name in self.base.named and name not in self.ours.named

    def see_not_moved(self, key):
        """Theirs has moved it, and it is not moved."""
        self.want_told(key, 'moved', 'theirs has moved it')
        holder = next(iter(self.theirs.above(key)), None)
        if holder is not None and holder in self.merged.rows and key not in self.merged.above(holder):
            self.fault('it could be moved:', key)

    # ---- cells
    def see_cells(self, key):
        tables = [side.cells[key] for side in (self.base, self.ours, self.theirs, self.merged)]
        for at in {*tables[0], *tables[1], *tables[2], *tables[3]}:
            base, ours, theirs, merged = (table.get(at) for table in tables)
            theirs = theirs if self.is_in(self.theirs, at) else base
            if not self.has_cell(at):
                if merged is not None or theirs != base and self.is_in(self.theirs, at) and not self.is_told_cut(key):
                    self.fault(key, at, 'outside the map, and not told')
                continue
            wanted = ours if theirs in (base, ours) else theirs
            if theirs not in (base, ours) and (ours != base or theirs is not None and self.has_no_tileset(theirs[0])):
                wanted = ours
                self.want_told((*key, *at), 'cells', f'{base} {ours} {theirs}')
            if wanted != merged:
                self.fault(key, at, 'base', base, 'ours', ours, 'theirs', theirs, 'is', merged)

    def has_cell(self, at):
        return self.is_in(self.merged, at)

    def is_in(self, side, at):
        tree = side.tree
        return tree.get('infinite') or all(0 <= each + by < tree[name] for each, by, name in zip(at, side.offset, ('width', 'height')))

    def is_told_cut(self, key):
        return self.is_told((*key, 'cut'), 'cells')

    # ---- things that ours has not
    def see_removed_by_ours(self):
        for key in [each for each in self.base.rows if each not in self.ours.rows]:
            if key in self.merged.rows:
                self.fault('ours removed it, and it is there:', key)
            if key in self.theirs.rows and self.is_changed(key, self.theirs):
                self.want_told(key, 'removed', 'theirs has changed it, ours removed it')

    def lacking(self):
        """What theirs has added in what ours has removed, or with a tile of a tileset that is."""
        found = []
        for key in [each for each in self.theirs.rows if each not in self.base.rows]:
            holder = next((each for each in self.theirs.above(key) if each in self.base.rows), None)
            tile = self.theirs.rows[key].get('gid')
            if holder is not None and holder not in self.ours.rows or tile and self.has_no_tileset(json.loads(tile)[0]):
                found.append(key)
        return found

    def see_added_by_theirs(self):
        wanted, lacking = collections.Counter(), self.lacking()
        got = collections.Counter(self.merged.whole(key) for key in self.merged.rows if key not in self.ours.rows)
        for key in [each for each in self.theirs.rows if each not in self.base.rows and each not in lacking]:
            if not self.is_twin(key):
                self.take_out_cells(key)
                wanted[self.theirs.whole(key)] += 1
        # They may have other ids by now.
        told = [each for each in self.told if each[1] == 'added']
        self.met.update(told)
        if sorted(key[0] for key in lacking) != sorted(key[0] for key, _ in told):
            self.fault('added by theirs in what ours removed:', lacking, 'told:', told)
        if wanted != got:
            self.fault('added by theirs: lost', [*(wanted - got)][:2], 'and there', [*(got - wanted)][:2])

    def is_twin(self, key):
        """Whether both have added one thing, with all that stands in it."""
        inside = [side.children.get(key, []) for side in (self.ours, self.theirs)]
        is_alike = key in self.ours.rows and self.ours.whole(key) == self.theirs.whole(key)
        return is_alike and inside[0] == inside[1] and all(map(self.is_twin, inside[0]))

    def take_out_cells(self, key):
        """Takes the cells out of a layer that theirs has added whose tileset ours removed, or that lie outside the map: they are told, under the id
        that it has by now."""
        lacking = [at for at, tile in self.theirs.cells.get(key, {}).items() if self.has_no_tileset(tile[0])]
        told = [each for each in self.told if each[1] == 'cells' and each[0][2:] in lacking and each[0][:2] not in self.ours.rows]
        if len(told) < len(lacking):
            self.fault('not told: cells of', key, 'whose tileset ours removed')
        self.met.update(told)
        outside = [at for at in self.theirs.cells.get(key, {}) if not self.is_in(self.merged, at)]
        cut = [each for each in self.told if each[0][2:] == ('cut',) and each[0][:2] not in self.ours.rows]
        if outside and not cut:
            self.fault('not told: cells of', key, 'outside the map')
        self.met.update(cut if outside else ())
        for at in {*lacking, *outside}:
            del self.theirs.cells[key][at]

    def see_tilesets(self):
        firsts = [each[0] for each in self.merged.tilesets]
        if len({*firsts}) < len(firsts):
            self.fault('a first id twice')
        for name in {*self.ours.named, *self.theirs.named} - {*self.merged.named}:
            if name not in self.base.named or name in self.ours.named and name in self.theirs.named:
                self.fault('lost: tileset', name)
        for name in {*self.merged.named} - {*self.ours.named, *self.theirs.named}:
            self.fault('a tileset that nobody has:', name)
        self.met.update(each for each in self.told if each[0][0] == 'tileset')

    # ---- orders
    def see_orders(self):
        """What stands in one list on all sides has the order of the side that has changed it."""
        for holder, children in self.merged.children.items():
            lists = [side.children.get(holder, []) for side in (self.base, self.ours, self.theirs, self.merged)]
            common = {*lists[0]} & {*lists[1]} & {*lists[2]} & {*lists[3]}
            base, ours, theirs, merged = ([each for each in listed if each in common] for listed in lists)
            orders = [each for each in self.told if each[0] in common and each[1] == 'order']
            if theirs in (base, ours) or ours == base:
                wanted = ours if theirs in (base, ours) else theirs
                if merged != wanted:
                    self.fault(holder, 'order', base, ours, theirs, 'is', merged)
            else:
                self.met.update(orders)


def told_by(conflicts, offset):
    """What a merge tells, as `Checked` takes it: of cells each place, where it was before all was moved with the size."""
    found = set()
    for each in conflicts:
        key = 'map' if each.subject.kind == 'map' else tuple(each.subject)
        if each.what == 'cells':
            found.update((*key, x - offset[0], y - offset[1]) for x, y, _ in each.ours['cells']) if each.ours['cells'] else found.add((*key, 'cut'))
            continue
        found.add((key, each.what))
    return {each if isinstance(each[-1], str) and len(each) == 2 else (each, 'cells') for each in found}
