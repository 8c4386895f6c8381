# SPDX-License-Identifier: MIT OR Apache-2.0
"""Moves layers into groups and out of them on the page in Chromium, by drags and by keys, with a line that shows where
each would go; makes copies of layers with all that they have, merges them, and groups them, each as one step."""
import json

from lib.maps import cells_of, layers_in
from page.bench import Bench, choose, colours_now, layer_of, see_colours, spelled, standing
from page.browser import ActionChains, Keys
from page.layer_list import DROP, ids_of, make_room, now, point_in, row_of
from test_page_menus import pick, right_click, rows

NEEDS_BROWSER = True
IS_LONG = True
# How much farther to the right the rows of a group begin.
INDENT = 14


def tree_of(layers):
    """The layers as names, each group as a pair of its name and what is in it."""
    return [(each['name'], tree_of(each['layers'])) if each['type'] == 'group' else each['name'] for each in layers]


def tree(page):
    return tree_of(page.editor.map()['layers'])


def beside(point, right, down=0):
    return [point[0] + right, point[1] + down]


def without_ids(layer):
    """A layer as a copy of it has it: ids are others, and a group's layers and the objects are so, too."""
    made = {name: value for name, value in layer.items() if name != 'id'}
    for name in ('layers', 'objects'):
        if name in made:
            made[name] = [without_ids(each) for each in made[name]]
    return made


def menu_of(page, number, text):
    page.js('document.querySelector(`#layers li[data-layer="${arguments[0]}"]`).scrollIntoView({block: "center"})', number)
    right_click(page, f'#layers li[data-layer="{number}"] .name')
    pick(page, text)


def why_grey(page, number, text):
    """Why something is grey in the menu of a layer; "" where it is not."""
    page.js('document.querySelector(`#layers li[data-layer="${arguments[0]}"]`).scrollIntoView({block: "center"})', number)
    right_click(page, f'#layers li[data-layer="{number}"] .name')
    found = page.js('const row = [...document.querySelectorAll("#menu button")].find(each => each.querySelector(".words").textContent === arguments[0]);'
                    'return [row.title, row.ariaDisabled]', text)
    ActionChains(page.driver).send_keys(Keys.ESCAPE).perform()
    page.settle()
    assert (found[0] != '') == (found[1] == 'true'), found
    return found[0]


def test_drag_into_a_group():
    """A drag over the middle of a group's row leads into it, on top of all there; one between two of its layers leads
    between these. What shows it stands where the layer will."""
    with Bench() as page:
        make_room(page)
        town = page.editor.map()
        houses, ground = layer_of(page, 'Houses'), layer_of(page, 'Ground')['id']
        inside = ids_of(houses['layers'])
        middle = point_in(page, houses['id'])
        page.hold([point_in(page, ground), beside(middle, 0, 2), middle])
        assert 'drop-into' in page.find(f'#layers li[data-layer="{houses["id"]}"]').get_attribute('class')
        left, top, width, height = row_of(page, houses['id'])
        assert colours_now(page, [(int(left + width / 2), int(top) + 1), (int(left + width / 2), int(top + height) - 2)]) == [DROP] * 2
        page.let_go()
        assert spelled(page) == [f'layer into {ground} {houses["id"]} {len(inside)}'] and standing(page) == (1, 1)
        assert ids_of(layer_of(page, 'Houses')['layers']) == [*inside, ground]
        page.ctrl('z')
        assert page.editor.map() == town
        page.hold([point_in(page, ground), point_in(page, inside[0], 0.9), point_in(page, inside[0], 0.1)])
        left, top, width, _ = row_of(page, inside[0])
        # The line begins where the rows of the group do.
        assert colours_now(page, [(int(left + width / 2), int(top) + 1), (int(left) + INDENT + 4, int(top) + 1)]) == [DROP] * 2
        assert colours_now(page, [(int(left) + INDENT - 4, int(top) + 1)]) != [DROP]
        page.let_go()
        assert spelled(page)[-1] == f'layer into {ground} {houses["id"]} 1'
        see_colours(page, [(x, 2) for x in range(0, 40, 3)])


def test_drag_out_of_a_group():
    """A drag of a layer past its group leads out of it. Below the last layer of a group it stays in that, and leaves it
    where the hand goes to the left."""
    with Bench() as page:
        make_room(page)
        town = page.editor.map()
        top = ids_of(town['layers'])
        trees, bushes = ids_of(layer_of(page, 'Green')['layers'])
        things = layer_of(page, 'Things')['id']
        page.hold([point_in(page, bushes), point_in(page, things, 0.9), point_in(page, things, 0.1)])
        page.let_go()
        assert spelled(page) == [f'layer into {bushes} 0 {top.index(things) + 1}']
        page.ctrl('z')
        # The row below the group is that of the houses.
        place = top.index(layer_of(page, 'Houses')['id']) + 1
        for right, line in ((0, f'layer move {bushes} 0'), (-INDENT, f'layer into {bushes} 0 {place}')):
            start, end = point_in(page, bushes), point_in(page, trees, 0.9)
            page.hold([start, beside(end, right, -1), beside(end, right)])
            page.let_go()
            assert spelled(page)[-1] == line
            page.ctrl('z')
        assert page.editor.map() == town


def test_no_drop():
    """A group goes into itself nowhere, and no layer deeper than groups may stand: the page says so, and sends nothing."""
    with Bench() as page:
        make_room(page)
        houses = layer_of(page, 'Houses')
        inside = ids_of(houses['layers'])
        goal = point_in(page, inside[0])
        page.hold([point_in(page, houses['id']), goal, beside(goal, 0, 1)])
        assert 'no-drop' in page.find('#layers').get_attribute('class')
        page.let_go()
        assert page.bubble() == 'Houses cannot go into itself.' and spelled(page) == []
        # A layer with sixteen groups around it.
        first = page.editor.map()['nextlayerid']
        chain = [line for at in range(16) for line in (f'layer add group G{at}', f'layer into {first + at} {first + at - 1 if at else 0} 0')]
        page.editor.lines(*chain, 'layer add tile Deep', f'layer into {first + 16} {first + 15} 0')
        assert why_grey(page, first + 16, 'Group') == 'At most 16 groups stand in one another'


def test_by_keys():
    """Ctrl+Shift+→ moves the layer to the bottom of the group above it, or on top of the one below; Ctrl+Shift+← moves it
    out, below its group. Both do so in the list, too, and say where they cannot."""
    with Bench() as page:
        town = page.editor.map()
        houses = layer_of(page, 'Houses')
        ground = choose(page, 'Ground')
        top = ids_of(town['layers'])
        assert top.index(houses['id']) == 1 and top.index(ground) == 0
        page.ctrl(Keys.ARROW_RIGHT, Keys.SHIFT)
        assert spelled(page) == [f'layer into {ground} {houses["id"]} 0'] and now(page) == ground
        page.ctrl(Keys.ARROW_LEFT, Keys.SHIFT)
        assert spelled(page)[-1] == f'layer into {ground} 0 0' and standing(page) == (2, 2)
        assert ids_of(page.editor.map()['layers']) == top
        page.ctrl(Keys.ARROW_LEFT, Keys.SHIFT)
        assert page.bubble() == 'It stands in no group.' and standing(page) == (2, 2)
        above = top[top.index(houses['id']) + 1]
        page.js('document.querySelector(`#layers li[data-layer="${arguments[0]}"]`).click()', above)
        page.js('document.querySelector("#layers .now").focus()')
        chain = ActionChains(page.driver).key_down(Keys.CONTROL).key_down(Keys.SHIFT).send_keys(Keys.ARROW_RIGHT)
        chain.key_up(Keys.SHIFT).key_up(Keys.CONTROL).perform()
        page.settle()
        assert spelled(page)[-1] == f'layer into {above} {houses["id"]} {len(houses["layers"])}'
        assert page.js('return document.activeElement.dataset.layer') == str(above), 'the keys stay in the list'
        choose(page, 'Things')
        page.ctrl(Keys.ARROW_RIGHT, Keys.SHIFT)
        assert page.bubble() == 'No group stands beside it.' and standing(page) == (3, 3)


def test_a_copy():
    """Ctrl+Shift+D puts a copy above the layer, which has its cells, objects, properties and members, and so has all that is
    in a group; one undo takes it away. The copy is the current layer, and what is selected stays so."""
    with Bench() as page:
        page.editor.lines(
            'member put layer:1 {"tintcolor":"#ff8000","offsetx":3,"locked":true,"class":"floor"}', 'prop set layer:1 depth int 3',
            'prop put layer:1 {"name":"two words","value":"a\\nb","type":"string"}', 'select replace 3 3 2 4', 'select add 8 3 1 1')
        town, count = page.editor.map(), standing(page)
        for name in ('Ground', 'Houses', 'Places', 'Cottages'):
            number, first = choose(page, name), town['nextlayerid']
            page.ctrl('d', Keys.SHIFT)
            assert standing(page) == (count[0] + 1, count[1] + 1) and now(page) == first, name
            copy, source = layer_of(page, f'Copy of {name}'), layer_of(page, name)
            made, own = without_ids(copy), without_ids(source)
            assert {**made, 'name': name} == own, name
            siblings = next(each for each in [page.editor.map()['layers'], *(x['layers'] for x in layers_in(page.editor.map()['layers']) if 'layers' in x)]
                            if number in ids_of(each))
            assert ids_of(siblings)[ids_of(siblings).index(number) + 1] == copy['id']
            assert page.editor.state()['selection'] == [[3, 3, 2], [3, 8, 1], [4, 3, 2], [5, 3, 2], [6, 3, 2]]
            page.ctrl('z')
            now_is = page.editor.map()
            assert {**now_is, 'nextlayerid': 0, 'nextobjectid': 0} == {**town, 'nextlayerid': 0, 'nextobjectid': 0}, name


def test_a_copy_with_fractions():
    """A copy has the fractions of the layer, and those of its objects."""
    bench = Bench(empty=True)
    with bench as page:
        town = json.loads((bench.folder / 'town.tmj').read_text())
        ground, places = (next(each for each in town['layers'] if each['name'] == name) for name in ('Ground', 'Places'))
        ground.update(opacity=0.5, offsety=2.5)
        places['objects'][0].update(x=32.25, rotation=0.5)
        (bench.folder / 'faint.tmj').write_text(json.dumps(town))
        page.choose_files(*bench.folder.glob('*.ts?'), *bench.folder.glob('*.png'), bench.folder / 'faint.tmj')
        for name, count in (('Ground', 1), ('Places', 2)):
            choose(page, name)
            page.ctrl('d', Keys.SHIFT)
            assert standing(page) == (count, count) and not page.notices()
        assert cells_of(layer_of(page, 'Copy of Ground')) == cells_of(layer_of(page, 'Ground'))
        layers = {each['name']: each for each in page.editor.map_with_fractions()['layers']}
        copy, first = layers['Copy of Ground'], layers['Copy of Places']['objects'][0]
        assert (copy['opacity'], copy['offsety']) == (0.5, 2.5)
        assert (first['x'], first['rotation']) == (32.25, 0.5)


def test_merge():
    """Merge down puts the tiles of a layer over those of the layer below, and takes it away, as one step, whatever is
    selected. Where it cannot, it is grey and says why."""
    with Bench() as page:
        houses = layer_of(page, 'Houses')
        low, high = layer_of(page, 'Green')['layers']
        page.editor.lines('select replace 0 0 2 2')
        town, count = page.editor.map(), standing(page)
        below, above = cells_of(low), cells_of(high)
        menu_of(page, high['id'], 'Merge down')
        assert cells_of(layer_of(page, low['name'])) == [top or under for top, under in zip(above, below)]
        assert high['id'] not in ids_of(layer_of(page, 'Green')['layers']) and now(page) == low['id']
        assert standing(page) == (count[0] + 1, count[1] + 1) and page.texts('#steps li .name')[-1] == 'Merge Layer Down'
        assert page.editor.state()['selection'] == [[0, 0, 2], [1, 0, 2]]
        page.ctrl('z')
        assert page.editor.map() == town
        ground = layer_of(page, 'Ground')['id']
        assert why_grey(page, ground, 'Merge down') == 'It is the lowest layer already'
        assert why_grey(page, low['id'], 'Merge down') == 'It is the lowest layer of its group already'
        assert why_grey(page, houses['id'], 'Merge down') == 'Tile layers and object layers are merged'
        page.click(f'#layers li[data-layer="{low["id"]}"] .lock')
        assert why_grey(page, high['id'], 'Merge down') == f'{low["name"]} is locked'
        page.click(f'#layers li[data-layer="{low["id"]}"] .lock')
        page.editor.lines(f'member set layer:{high["id"]} offsetx 4')
        assert why_grey(page, high['id'], 'Merge down') == f'{low["name"]} has another offset: set both alike first'


def test_merge_of_objects():
    """The objects of a layer go on top of those of the layer below, as they are."""
    with Bench() as page:
        places = layer_of(page, 'Places')
        number = page.editor.map()['nextlayerid']
        page.editor.lines('layer add object More', f'object put {number} {{"x":8,"y":16,"point":true,"name":"well"}}')
        at = ids_of(page.editor.map()['layers']).index(places['id'])
        page.editor.lines(f'layer move {number} {at + 1}')
        count = standing(page)
        menu_of(page, number, 'Merge down')
        after = layer_of(page, 'Places')
        assert [each['id'] for each in after['objects']] == [*(each['id'] for each in places['objects']), page.editor.map()['nextobjectid'] - 1]
        assert after['objects'][-1]['name'] == 'well' and standing(page) == (count[0] + 1, count[1] + 1)


def test_group():
    """Group puts a group around a layer, in its place, and Ungroup takes it away again; each is one step."""
    with Bench() as page:
        town = page.editor.map()
        first = town['nextlayerid']
        for name in ('Ground', 'Cottages'):
            number = choose(page, name)
            before = tree(page)
            menu_of(page, number, 'Group')
            group = page.js('return roskevad.bench.layer.group.data.name')
            assert now(page) == number and standing(page)[0] % 2 == 1
            assert str(tree(page)) == str(before).replace(f"'{name}'", f"('{group}', ['{name}'])"), tree(page)
            menu_of(page, number, 'Ungroup')
            assert tree(page) == before and now(page) == number
        assert standing(page) == (4, 4) and page.texts('#steps li .name')[1:] == ['Group Layer', 'Ungroup Layers'] * 2
        assert page.editor.map() == {**town, 'nextlayerid': first + 2}
        houses = layer_of(page, 'Houses')
        menu_of(page, houses['id'], 'Ungroup')
        inside = ids_of(houses['layers'])
        top = ids_of(page.editor.map()['layers'])
        assert top[1 : 1 + len(inside)] == inside and houses['id'] not in top and now(page) == inside[-1]
        assert why_grey(page, layer_of(page, 'Ground')['id'], 'Ungroup') == 'It is no group, and stands in none'


def test_in_the_menu():
    """The menu of all has what is done with whole layers, with its keys."""
    with Bench() as page:
        choose(page, 'Ground')
        page.keys(Keys.F10)
        words = rows(page)
        assert {'Merge down', 'Group', 'Ungroup', 'Into the group beside it', 'Out of its group'} <= set(words)
        keys = dict(zip(words, page.texts('#menu button .keys')))
        assert keys['Out of its group'] == 'Ctrl+Shift+←'
        pick(page, 'Into the group beside it')
        assert spelled(page)[-1].startswith('layer into ')
