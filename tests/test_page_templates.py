# SPDX-License-Identifier: MIT OR Apache-2.0
"""Shows and edits objects of templates on the page in Chromium: what the template has is grey, drawn and found by a click; an
edit sets the object's own; nothing of the template is written; and a template whose file is not there says so."""
import json

from lib.cases import passed
from page.bench import Bench, object_of, points_at, spelled, standing

NEEDS_BROWSER = True
DOOR = '''<?xml version="1.0" encoding="UTF-8"?>
<template><object name="door" type="Door" width="32" height="24" rotation="0"><properties><property name="key" value="red"/>
<property name="guard" type="class" propertytype="Guard"><properties><property name="speed" type="int" value="3"/></properties></property>
<property name="open" type="bool" value="true"/></properties></object></template>
'''
CHEST = {'type': 'template', 'object': {'name': 'chest', 'type': 'Chest', 'gid': 9, 'width': 16, 'height': 16, 'visible': True},
         'tileset': {'firstgid': 1, 'source': 'tiles.tsx'}}
FIRST, SECOND = 901, 902


def written(bench):
    """Writes the town with two objects of templates, and the templates."""
    town = json.loads((bench.folder / 'town.tmj').read_text())
    objects = [{'id': FIRST, 'template': 'door.tx', 'x': 200, 'y': 200}, {'id': SECOND, 'template': 'chest.tj', 'x': 300, 'y': 216}]
    layer = {'type': 'objectgroup', 'id': 900, 'name': 'Doors', 'objects': objects, 'opacity': 1, 'visible': True, 'x': 0, 'y': 0}
    town |= {'layers': [*town['layers'], layer], 'nextlayerid': 901, 'nextobjectid': 903}
    (bench.folder / 'doors.tmj').write_text(json.dumps(town))
    (bench.folder / 'door.tx').write_text(DOOR)
    (bench.folder / 'chest.tj').write_text(json.dumps(CHEST))


def opened(bench, *files):
    """The page with that map, and with some of the templates."""
    written(bench)
    bench.page.choose_files(bench.folder / 'doors.tmj', *bench.folder.glob('*.ts?'), *bench.folder.glob('*.png'), *(bench.folder / name for name in files))


def choose(page, number):
    page.js('roskevad.tools.choose("objects"); roskevad.objects.choose(arguments[0])', number)
    page.settle()


def field(page, name):
    return page.find(f'#properties [data-key="{name}"]')


def shown(page, name):
    """The value of a field, and whether it is grey."""
    at = field(page, name)
    value = page.js('return arguments[0].type === "checkbox" ? String(arguments[0].checked) : arguments[0].value', at)
    return value, page.js('return arguments[0].closest(".usual") !== null', at)


def test_values():
    """The template's values stand in the fields, in grey. One that is set is the object's own, by the line that sets it of any
    object; undone it is the template's again. Nothing else of the template is written."""
    bench = Bench(empty=True)
    with bench as page:
        opened(bench, 'door.tx', 'chest.tj')
        choose(page, FIRST)
        before = {'id': FIRST, 'template': 'door.tx', 'x': 200, 'y': 200}
        assert object_of(page, FIRST) == before
        wanted = {' name': 'door', ' type': 'Door', ' width': '32', ' height': '24', 'key': 'red', 'open': 'true', 'guard.speed': '3'}
        # The field of the class is named by its member.
        wanted[' class'] = wanted.pop(' type')
        for name, value in wanted.items():
            assert shown(page, name) == (value, True), (name, shown(page, name))
            passed()
        assert shown(page, ' x') == ('200', False)
        assert not page.find('#properties tr[data-property="key"] td:last-child button').is_enabled()
        edits = [
            (' name', 'gate', f'member set object:{FIRST} name "gate"', {'name': 'gate'}),
            ('key', 'blue', f'prop set object:{FIRST} key string blue', {'properties': [{'name': 'key', 'type': 'string', 'value': 'blue'}]}),
            (' width', '40', f'object resize {FIRST} 40 24', {'width': 40, 'height': 24}),
        ]
        for name, value, line, members in edits:
            page.type_into(f'#properties [data-key="{name}"]', value)
            assert spelled(page)[-1] == line and object_of(page, FIRST) == {**before, **members}, (name, spelled(page)[-1])
            assert shown(page, name) == (value, False)
            assert page.js('return [...document.querySelectorAll("#properties tr[data-property]")].map(row => row.dataset.property)') == ['key', 'guard', 'open']
            page.ctrl('z')
            assert object_of(page, FIRST) == before and shown(page, name) == (wanted[name], True)
            passed()
        page.type_into('#properties [data-key="guard.speed"]', '7')
        assert object_of(page, FIRST)['properties'] == [{'name': 'guard', 'type': 'class', 'propertytype': 'Guard', 'value': {'speed': 7}}]


def test_on_the_map():
    """It is as large as its template says, and named so in the list; a tile of it is the map's own number."""
    bench = Bench(empty=True)
    with bench as page:
        opened(bench, 'door.tx', 'chest.tj')
        page.keys('s')
        for number, place in ((FIRST, (228, 220)), (SECOND, (312, 204))):
            page.js('roskevad.bench.chooseObject(null)')
            page.drag_points([list(each) for each in points_at(page, [place])])
            assert page.js('return roskevad.bench.objectIds') == [number], number
            passed()
        assert page.texts('#owner') == ['chest'] and 'chest' in ' '.join(page.texts('#objects .name'))
        first = next(each['firstgid'] for each in page.editor.map()['tilesets'] if each['source'] == 'tiles.tsx')
        assert page.js('return roskevad.editor.map.object(arguments[0]).object.gid', SECOND) == first + 8
        assert standing(page) == (0, 0)


def test_without_its_file():
    """A template whose file is not there says so, and what to do; its values come with it."""
    bench = Bench(empty=True)
    with bench as page:
        opened(bench, 'chest.tj')
        choose(page, FIRST)
        assert 'choose it, too' in page.find('#properties').text and shown(page, ' name') == ('', False)
        page.choose_files(bench.folder / 'door.tx')
        page.wait(lambda: shown(page, ' name') == ('door', True), 'the values of the template')
        assert 'choose it, too' not in page.find('#properties').text and not page.notices(), page.notices()


def test_served():
    """`./tile_page` serves templates, too."""
    bench = Bench(empty=True, served=True)
    with bench as page:
        written(bench)
        page.js('roskevad.documents.openPath("doors.tmj")')
        page.wait(lambda: page.js('return roskevad.editor.map !== null'), 'the map is open')
        page.settle()
        choose(page, FIRST)
        page.wait(lambda: shown(page, ' name') == ('door', True), 'the values of the template')
