# SPDX-License-Identifier: MIT OR Apache-2.0
"""Edits layers, groups, objects, properties and the map's size on the page in Chromium, by mouse,
keys and dialogs: each edit is the line that it must be, and is seen."""
import json

from lib.maps import layers_in, objects_in
from page.bench import (
    Bench,
    cell,
    choose,
    corner_of,
    free_places,
    layer_of,
    middle_of,
    object_of,
    see_colours,
    spelled,
    standing,
    take_tile,
)
from page.browser import ActionChains, Keys
from selenium.webdriver.common.actions.wheel_input import ScrollOrigin
from selenium.webdriver.support.ui import Select
from test_page_fields import type_keys

NEEDS_BROWSER = True
IS_LONG = True


def test_objects():
    """An object is dragged, with one line; set by the table; a new one is drawn, named and
    deleted."""
    with Bench() as page:
        number = next(
            o['id']
            for layer in layers_in(page.editor.map()['layers'])
            for o in layer.get('objects', ())
            if o['name'] == 'Inn'
        )
        was, scale = object_of(page, number), page.js('return roskevad.view.scale')
        page.keys('s')
        x, y = middle_of(page, number)
        page.drag_points([[x, y], [x + 30, y + 9], [x + 40, y + 20]])
        moved = object_of(page, number)
        assert spelled(page) == [
            f"object move {number} {round(was['x'] + 40 / scale)} {round(was['y'] + 20 / scale)}"
        ], spelled(page)
        x, y = middle_of(page, number)
        page.drag_points([[x, y], [x + 3, y], [x - 25, y - 3]], Keys.CONTROL)
        assert object_of(page, number)['x'] % 16 == 0 and object_of(page, number)['x'] < moved['x']
        page.click('#of-object')
        page.type_into('#properties input[data-key=" width"]', 48)
        assert object_of(page, number)['width'] == 48 and spelled(page)[-1].startswith(
            f'object resize {number} 48 '
        )
        count = standing(page)[1]
        page.keys('i')
        page.drag([(20, 5), (22, 6)], Keys.CONTROL)
        page.type_into('#properties [data-key=" name"]', 'gate to the east')
        new = max(objects_in(page.editor.map()), key=lambda each: each['id'])
        assert (
            [new[each] for each in ('name', 'x', 'y', 'width', 'height')] == ['gate to the east', 320, 80, 48, 32]
            and standing(page)[1] == count + 2
        )
        page.keys('s')
        page.drag([(21, 5)])
        page.keys(Keys.DELETE)
        assert spelled(page)[-1].startswith('object remove ') and standing(page)[1] == count + 3


def test_layers():
    """Layers are added, renamed, moved, hidden and removed; the tree has them."""
    with Bench() as page:
        page.click(f'#layers li[data-layer="{page.editor.map()["layers"][-1]["id"]}"] .name')
        page.click('#add-tile-layer')
        type_keys(page, 'Clouds over all', Keys.ENTER)
        number = layer_of(page, 'Clouds over all')['id']
        assert (
            page.js('return roskevad.bench.layerId') == number
            and page.texts('#layers .name')[0] == 'Clouds over all'
        )
        page.drag([(1, 1)])
        assert cell(page, number, 1, 1) != 0
        page.click('#layer-down')
        place = len(page.editor.map()['layers']) - 2
        assert (
            spelled(page)[-1] == f'layer move {number} {place}'
            and page.texts('#layers .name')[0] != 'Clouds over all'
        )
        page.click('#layer-up')
        assert (
            not page.find('#layer-up').is_enabled()
            and page.texts('#layers .name')[0] == 'Clouds over all'
        )
        page.click('#rename-layer')
        type_keys(page, 'Mist', Keys.ENTER)
        assert layer_of(page, 'Mist')['id'] == number
        for kind, name, type_ in (('object', 'Signs', 'objectgroup'), ('image', 'The sky', 'imagelayer'), ('group', 'Yard', 'group')):
            choose(page, 'Mist')
            page.click(f'#add-{kind}-layer')
            if kind == 'image':
                page.click('#without-picture')
                page.wait(lambda: page.js('return document.activeElement.className') == 'row-field', 'a name is asked for')
            type_keys(page, name, Keys.ENTER)
            assert spelled(page)[-1] == f'layer add {kind} {name}' and page.texts('#layers .now .name') == [name]
            assert page.editor.map()['layers'][-1]['type'] == type_
            page.click('#remove-layer')
            assert name not in page.texts('#layers .name')


def test_groups():
    """A group stands in the tree above its layers; it is moved, and removed with all that is in it;
    a layer in it is drawn on."""
    with Bench() as page:
        houses = layer_of(page, 'Houses')
        inside = len(list(layers_in(houses['layers'])))
        shown = page.texts('#layers .name')
        at = shown.index('Houses')
        assert (
            set(shown[at + 1 : at + 1 + inside])
            == {layer['name'] for layer in layers_in(houses['layers'])}
            and shown[-1] == 'Ground'
        )
        number = choose(page, 'Cottages')
        take_tile(page, (3, 1))
        page.drag([(2, 2), (5, 2)])
        assert spelled(page)[0] == f'stamp {number} 2 2 1 12' and cell(page, number, 5, 2) == 12
        see_colours(page, [(x, 2) for x in range(2, 6)])
        assert not page.find('#layer-up').is_enabled(), 'it is the last one of its group'
        choose(page, 'Houses')
        page.drag([(2, 2)])
        assert page.bubble() == 'Houses is a group. Choose a tile layer in it to draw.'
        page.click('#layer-down')
        assert (
            page.editor.map()['layers'][0]['id'] == houses['id']
            and page.texts('#layers .name')[-1] != 'Ground'
        )
        see_colours(page, list(free_places(page.editor.map(), 9)))
        page.click('#remove-layer')
        assert len(page.texts('#layers li')) == len(shown) - 1 - inside
        page.ctrl('z')
        assert len(page.texts('#layers li')) == len(shown)


def test_properties():
    """Properties of the map, a layer and an object are set, changed and removed in the table."""
    with Bench() as page:
        choose(page, 'Ground')
        page.click('#of-map')
        page.type_into('#properties input[data-key="people"]', 13)
        assert spelled(page) == ['prop set map people int 13']
        for owner, kind in (('map', 'map'), ('layer', f"layer:{layer_of(page, 'Ground')['id']}")):
            page.click(f'#of-{owner}')
            page.find('#new-name').send_keys('weather')
            page.find('#new-value').send_keys('rain and wind', Keys.ENTER)
            page.settle()
            assert spelled(page)[-1] == f'prop set {kind} weather string rain and wind'
            page.click('#properties tr[data-property="weather"] button')
            assert spelled(page)[-1] == f'prop remove {kind} weather'
        index = standing(page)
        page.find('#new-value').send_keys('x', Keys.ENTER)
        page.settle()
        assert (
            page.texts('#properties .new .fault')[-1].startswith('one letter at least')
            and standing(page) == index
        )


def test_properties_of_any_name():
    """One whose name no line can set is removed by its button all the same."""
    names = ['two words', 'a\nb', '', '"q" ü', 'plain']
    with Bench() as page:
        things = layer_of(page, 'Things')['id']
        properties = [{'name': name, 'type': 'string', 'value': 'x'} for name in names]
        page.editor.lines(f'object put {things} {json.dumps({"name": "box", "properties": properties})}')
        number = layer_of(page, 'Things')['objects'][-1]['id']
        page.js('roskevad.objects.choose(arguments[0])', number)
        page.settle()
        for name in names:
            # A second click at one place would be that of a double click.
            page.js('document.querySelector("#properties tr[data-property] button").click()')
            page.settle()
            said = f'take object:{number} {json.dumps(name, ensure_ascii=False)}' if name != 'plain' else f'remove object:{number} plain'
            assert spelled(page)[-1] == f'prop {said}', name
            step = f'Remove Property · box: {name or "(no name)"}'
            assert ' '.join(page.texts('#steps li .name')[-1].split()) == ' '.join(step.split())
        assert 'properties' not in layer_of(page, 'Things')['objects'][-1]


def test_kinds_of_properties():
    """Each kind of property is set by its row."""
    values = {
        'string': 'two words',
        'int': '-5',
        'bool': 'true',
        'color': '#ff8800',
        'file': 'wind.ogg',
        'object': '2',
    }
    with Bench() as page:
        for kind, value in values.items():
            page.find('#new-name').send_keys(f'a_{kind}')
            Select(page.find('#new-type')).select_by_visible_text(kind)
            if kind == 'bool':
                page.click('#new-value')
            elif kind == 'object':
                page.click('#new-value')
                Select(page.find('#new-value')).select_by_value(value)
            else:
                page.find('#new-value').send_keys(value)
            page.click('#add-property')
        assert spelled(page) == [
            f'prop set map a_{kind} {kind} {value}' for kind, value in values.items()
        ]
        told = {
            each['name']: (each['type'], each['value']) for each in page.editor.map()['properties']
        }
        assert (
            told['a_int'] == ('int', -5)
            and told['a_bool'] == ('bool', True)
            and told['a_color'] == ('color', '#ff8800')
        )
        page.type_into('#properties input[data-key="a_int"]', 'many')
        assert 'a whole number' in page.texts('#properties .fault')
        page.find('#properties input[data-key="a_int"]').send_keys(Keys.ESCAPE)
        assert page.find('#properties input[data-key="a_int"]').get_attribute('value') == '-5'


def test_resize():
    """The map is resized by the dialog, and drawn so."""
    with Bench() as page:
        page.click('#resize')
        page.fill_in(width=42, height=31, right=2, down=1)
        town = page.editor.map()
        assert spelled(page) == ['resize 42 31 2 1'] and (town['width'], town['height']) == (42, 31)
        see_colours(page, [(x, y) for x, y in free_places(town, 7)])


def places_in_view(page):
    """Cells that no object covers, nor a bar or the map in small, and that are not beside the view
    of the map."""
    left, top, right, bottom = page.js(
        'const box = roskevad.view.box.getBoundingClientRect();'
        'return [box.left, box.top, box.right, box.bottom]'
    )
    cells = list(free_places(page.editor.map()))
    places = zip(cells, page.places(cells, (5, 9)))
    shown = [
        (cell, place)
        for cell, place in places
        if left < place[0] - 2 < right - 4 and top < place[1] - 2 < bottom - 4
    ]
    uncovered = page.js(
        'return arguments[0].map(([x, y]) => document.elementFromPoint(x, y).id === "hand")',
        [place for _, place in shown],
    )
    return [cell for (cell, _), is_free in zip(shown, uncovered) if is_free]


def test_moving():
    """The wheel with Ctrl makes the map larger and smaller where the hand is; the middle button
    moves it; only what is seen is drawn."""
    with Bench() as page:
        hand = page.point((10, 10))
        scales = [page.js('return roskevad.view.scale')]
        for turn in (100, -100, -100, -100):
            chain = ActionChains(page.driver).key_down(Keys.CONTROL)
            chain.scroll_from_origin(ScrollOrigin.from_viewport(*hand), 0, turn)
            chain.key_up(Keys.CONTROL).perform()
            page.wait(
                lambda: page.js('return roskevad.view.scale') != scales[-1],
                'the wheel changes the scale',
            )
            page.settle()
            scales.append(page.js('return roskevad.view.scale'))
        after = page.point((10, 10))
        assert (
            scales[1] < scales[0] == scales[2] < scales[3] < scales[4]
            and abs(after[0] - hand[0]) < 24
            and abs(after[1] - hand[1]) < 24
        ), scales
        page.drag_points([hand, [hand[0] + 30, hand[1] + 17]], button=1)
        moved = page.point((10, 10))
        assert [moved[0] - after[0], moved[1] - after[1]] == [30, 17] and not spelled(page)
        see_colours(
            page,
            [(x, y) for x, y in free_places(page.editor.map(), 2) if 8 < x < 16 and 8 < y < 14],
        )
        for way in ((-160, 90), (70, -200), (40, 60)):
            page.drag_points([[800, 500], [800 + way[0], 500 + way[1]]], button=1)
        see_colours(page, places_in_view(page))
        page.click('#fit')
        page.click('#grid')
        see_colours(page, free_places(page.editor.map(), 11))


def test_keys():
    """Keys that choose and move: all cells and none, Delete, the scale, and the space bar with the
    hand."""
    with Bench() as page:
        ground = choose(page, 'Ground')
        page.ctrl('a')
        assert len(page.js('return roskevad.editor.map.runs')) == 30
        page.keys(Keys.DELETE)
        assert spelled(page) == ['select replace 0 0 40 30', f'erase {ground} 0 0 40 30'] and set(
            layer_of(page, 'Ground')['data']
        ) == {0}
        page.ctrl('z')
        page.ctrl('a', Keys.SHIFT)
        assert page.js('return roskevad.editor.map.runs') == []
        lines, (left, top, scale) = spelled(page), corner_of(page)
        page.keys('+')
        assert corner_of(page)[2] > scale
        page.keys('-')
        assert corner_of(page)[2] == scale
        left, top, _ = corner_of(page)
        hand = page.point((20, 15))
        page.drag_points([hand, [hand[0] + 31, hand[1] - 12]], Keys.SPACE)
        assert corner_of(page)[:2] == [left + 31, top - 12] and spelled(page) == lines
