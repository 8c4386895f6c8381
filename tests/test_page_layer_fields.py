# SPDX-License-Identifier: MIT OR Apache-2.0
"""Sets what layers have beside their properties in the table of the page in Chromium: name, class, lock,
opacity, tint, offset, parallax, and the image of an image layer; what is as by default is grey, and a drag
of the slider is one step."""
import json

from lib.maps import layers_in
from page.bench import Bench, choose, layer_of, see_colours, spelled, standing, take_tile
from page.browser import Keys
from selenium.webdriver.support.ui import Select
from test_page_fields import faults, field_of, type_keys, value_of, with_ctrl

NEEDS_BROWSER = True
IS_LONG = True

# The fields of each layer, in their order.
FIELDS = [' name', ' class', ' visible', ' locked', ' opacity', ' tintcolor', ' offsetx', ' offsety', ' parallaxx', ' parallaxy']
OF_IMAGES = [' image', ' repeatx', ' repeaty']
PICK = 'arguments[0].value = arguments[1]; arguments[0].dispatchEvent(new Event("change"))'


def fields(page):
    return page.js('return [...document.querySelectorAll("#properties tr [data-key]")].map(each => each.dataset.key)')


def is_grey(page, name):
    """Whether a field is shown as one that has its default: in the colour of words that are less needed."""
    code = '''const dim = document.createElement("span");
              dim.style.color = "var(--dim)";
              document.body.append(dim);
              const [one, other] = [dim, arguments[0]].map(each => getComputedStyle(each).color);
              dim.remove();
              return one === other'''
    return page.js(code, field_of(page, name))


def put(page, name, value):
    page.type_into(f'#properties [data-key="{name}"]', value)


def slider(page):
    return page.find('#properties .slides input[type=range]')


def slide(page, *shares):
    """A drag of the slider over these shares of its width."""
    left, top, width, height = page.js(
        'const box = arguments[0].getBoundingClientRect(); return [box.left, box.top, box.width, box.height]', slider(page)
    )
    page.drag_points([[int(left + 8 + (width - 16) * share), int(top + height / 2)] for share in shares])
    page.settle()


def changed_town(bench, name, **members):
    """A copy of the town under another name, whose layer Ground has these members, and all files of it."""
    town = json.loads((bench.folder / 'town.tmj').read_text())
    next(layer for layer in layers_in(town['layers']) if layer['name'] == 'Ground').update(members)
    (bench.folder / name).write_text(json.dumps(town))
    return [bench.folder / name, *bench.folder.glob('*.ts?'), *bench.folder.glob('*.png')]


def test_fields_of_each_kind():
    """Each layer has the fields in their order, and an image layer those of its image. What is as by default is
    grey; a step of one that was set is named by what it has set."""
    with Bench() as page:
        for name in ('Ground', 'Houses', 'Places'):
            choose(page, name)
            assert fields(page) == FIELDS, name
        choose(page, 'Ground')
        ground = layer_of(page, 'Ground')['id']
        greys = [name for name in FIELDS if is_grey(page, name)]
        assert set(greys) >= set(FIELDS[4:]) and ' name' not in greys
        sets = [
            (' name', 'The "floor"', 'layer rename {} The "floor"', 'Rename Layer · The "floor"'),
            (' class', 'floor', 'member set layer:{} class "floor"', 'class'),
            (' opacity', '0', 'member set layer:{} opacity 0', 'opacity'),
            (' tintcolor', '#FF8000', 'member set layer:{} tintcolor "#ff8000"', 'tint'),
            (' offsetx', '5', 'member set layer:{} offsetx 5', 'offset x'),
            (' offsety', '-12', 'member set layer:{} offsety -12', 'offset y'),
            (' parallaxx', '2', 'member set layer:{} parallaxx 2', 'parallax x'),
            (' parallaxy', '0', 'member set layer:{} parallaxy 0', 'parallax y'),
        ]
        for name, typed, line, way in sets:
            put(page, name, typed)
            assert spelled(page)[-1] == line.format(ground), name
            step = way if '·' in way else f'Set {way.title()} · The "floor"'
            assert page.texts('#steps li .name')[-1] == step and not is_grey(page, name), name
            assert name != ' offsetx' or is_grey(page, ' offsety')
        for name, line in ((' visible', 'layer show {} no'), (' locked', 'member set layer:{} locked true')):
            field_of(page, name).click()
            page.settle()
            assert spelled(page)[-1] == line.format(ground)
        count = len(sets) + 2
        assert standing(page) == (count, count)
        members = layer_of(page, 'The "floor"')
        wanted = {'class': 'floor', 'opacity': 0, 'tintcolor': '#ff8000', 'offsetx': 5, 'offsety': -12, 'parallaxx': 2, 'parallaxy': 0}
        assert {name: members[name] for name in wanted} == wanted and members['locked'] is True and members['visible'] is False


def test_defaults():
    """A default is set by leaving the member out where Tiled does so: the map is as it was then."""
    with Bench() as page:
        choose(page, 'Ground')
        ground, before = layer_of(page, 'Ground')['id'], page.editor.map()
        usual = {' offsetx': '0', ' offsety': '0', ' parallaxx': '1', ' parallaxy': '1', ' tintcolor': ''}
        for name, value in usual.items():
            put(page, name, '#123456' if name == ' tintcolor' else '7')
            assert not is_grey(page, name) and value_of(page, name) != value
            put(page, name, value or Keys.DELETE)
            assert spelled(page)[-1] == f'member remove layer:{ground}{name}'
            assert is_grey(page, name) and value_of(page, name) == value
        field_of(page, ' locked').click()
        page.settle()
        field_of(page, ' locked').click()
        page.settle()
        assert page.editor.map() == before
        put(page, ' opacity', '0')
        put(page, ' opacity', '1')
        assert spelled(page)[-1] == f'member set layer:{ground} opacity 1' and page.editor.map() == before


def test_keys_in_the_fields():
    """Enter sets, Escape gives back, an arrow key counts, Ctrl+Z undoes; what is past its bounds is marked."""
    with Bench() as page:
        ground = choose(page, 'Ground')
        field_of(page, ' offsetx').click()
        type_keys(page, Keys.END, '4', Keys.ENTER)
        assert spelled(page) == [f'member set layer:{ground} offsetx 4'] and value_of(page, ' offsetx') == '4'
        type_keys(page, '9')
        assert value_of(page, ' offsetx') == '49'
        type_keys(page, Keys.ESCAPE)
        assert value_of(page, ' offsetx') == '4' and len(spelled(page)) == 1
        type_keys(page, Keys.ARROW_UP)
        assert spelled(page)[-1] == f'member set layer:{ground} offsetx 5'
        with_ctrl(page, 'z')
        assert value_of(page, ' offsetx') == '4' and standing(page) == (1, 2)
        wrong = [(' opacity', '2', 'from 0 to 1'), (' opacity', '-1', 'from 0 to 1'), (' offsety', 'up', 'number'), (' tintcolor', 'red', '#rrggbb')]
        for name, typed, why in wrong:
            put(page, name, typed)
            [fault] = faults(page)
            assert why in fault and value_of(page, name) == typed, (name, fault)
            field_of(page, name).send_keys(Keys.ESCAPE)
            assert not faults(page)
        put(page, ' name', 'x' * 201)
        assert '200' in faults(page)[0]
        assert len(spelled(page)) == 3


def test_fractions():
    """What a file has as a fraction is shown and kept, and one that is typed is set, with a point or a comma."""
    bench = Bench(empty=True)
    with bench as page:
        members = {'opacity': 0.5, 'offsetx': 2.5, 'parallaxy': 0.25, 'tintcolor': '#80FF8000'}
        page.choose_files(*changed_town(bench, 'faint.tmj', **members))
        ground = choose(page, 'Ground')
        shown = {' opacity': '0.5', ' offsetx': '2.5', ' parallaxy': '0.25', ' tintcolor': '#80ff8000'}
        assert {name: value_of(page, name) for name in shown} == shown
        assert float(slider(page).get_attribute('value')) == 0.5 and not any(is_grey(page, name) for name in shown)
        # A click into a field and out of it sets nothing.
        for name in shown:
            field_of(page, name).click()
            type_keys(page, Keys.TAB)
        assert not spelled(page)
        typed = [(' opacity', '0,75', 0.75), (' offsetx', '3.5', 3.5), (' parallaxx', '-.5', -0.5), (' offsety', '3', 3)]
        for name, text, _ in typed:
            put(page, name, text)
            assert not faults(page), name
        assert spelled(page) == [f'member set layer:{ground}{name} {value}' for name, _, value in typed]
        page.ctrl('s')
        saved = next(layer for layer in layers_in(json.loads(bench.saved('faint.tmj'))['layers']) if layer['name'] == 'Ground')
        assert all(saved[name.strip()] == value for name, _, value in typed)
        assert (saved['parallaxy'], saved['tintcolor']) == (members['parallaxy'], members['tintcolor'])
        field_of(page, ' parallaxy').click()
        type_keys(page, Keys.ARROW_DOWN)
        assert spelled(page)[-1] == f'member set layer:{ground} parallaxy 0.15', 'an arrow key goes by a tenth'


def test_slider():
    """A drag of the slider is one step, which is seen at once; back at its start it is none. The keys go to the
    map behind it. By keys it goes on, too."""
    with Bench() as page:
        ground = choose(page, 'Ground')
        places = [(x, 20) for x in range(0, 26, 5)]
        see_colours(page, places)
        slide(page, 1, 0.6, 0.3, 0)
        assert spelled(page)[-1].endswith(f' layer:{ground} opacity 0') and standing(page) == (1, 1)
        assert value_of(page, ' opacity') == '0' and layer_of(page, 'Ground')['opacity'] == 0
        behind = page.colours(page.places([(20, 3)], (5, 9)))
        page.keys('e')
        assert page.js('return roskevad.tools.name') == 'eraser'
        page.ctrl('z')
        assert value_of(page, ' opacity') == '1' and float(slider(page).get_attribute('value')) == 1
        assert page.colours(page.places([(20, 3)], (5, 9))) != behind
        see_colours(page, places)
        slide(page, 1, 0.3, 0, 0.3, 1)
        assert standing(page) == (0, 0) and layer_of(page, 'Ground')['opacity'] == 1
        # Two drags are two steps, also behind one another.
        slide(page, 1, 0)
        slide(page, 0, 1)
        assert standing(page) == (2, 2) and layer_of(page, 'Ground')['opacity'] == 1
        field_of(page, ' opacity').click()
        type_keys(page, Keys.SHIFT, Keys.TAB)
        page.js('arguments[0].focus()', slider(page))
        type_keys(page, Keys.HOME)
        assert standing(page) == (3, 3) and layer_of(page, 'Ground')['opacity'] == 0
        with_ctrl(page, 'z')
        assert layer_of(page, 'Ground')['opacity'] == 1


def test_tint():
    """The picker of a tint keeps its alpha; without a tint it is white, and the button takes the tint away."""
    with Bench() as page:
        ground = choose(page, 'Ground')
        swatch = page.find('#properties input[type=color]')
        assert swatch.get_attribute('value') == '#ffffff' and not page.find('.no-tint').is_enabled()
        before = page.colours(page.places([(20, 3)], (5, 9)))[0]
        page.js(PICK, swatch, '#ff0000')
        page.settle()
        assert spelled(page) == [f'member set layer:{ground} tintcolor "#ff0000"']
        assert page.colours(page.places([(20, 3)], (5, 9)))[0] == (before[0], 0, 0)
        put(page, ' tintcolor', '#80FF0000')
        page.js(PICK, swatch, '#00ff00')
        page.settle()
        assert spelled(page)[-1] == f'member set layer:{ground} tintcolor "#8000ff00"'
        page.click('.no-tint')
        assert spelled(page)[-1] == f'member remove layer:{ground} tintcolor' and 'tintcolor' not in layer_of(page, 'Ground')
        assert value_of(page, ' tintcolor') == '' and swatch.get_attribute('value') == '#ffffff'
        assert page.colours(page.places([(20, 3)], (5, 9)))[0] == before


def test_offset_is_seen():
    """A layer that is moved aside is drawn there, and drawn on there."""
    with Bench() as page:
        ground = choose(page, 'Ground')
        put(page, ' offsetx', '32')
        see_colours(page, [(x, 2) for x in range(0, 40, 3)])
        take_tile(page, (3, 1))
        page.keys('b')
        page.drag([(6, 20)])
        assert spelled(page)[-1] == f'stamp {ground} 4 20 1 12'


def test_image_layer():
    """The image of an image layer is one of the folder's images, which is drawn; it is repeated to each side."""
    with Bench() as page:
        page.editor.lines('layer add image Sky')
        sky = choose(page, 'Sky')
        assert fields(page) == FIELDS + OF_IMAGES and value_of(page, ' image') == ''
        spot = page.places([(1, 1)], (5, 9))
        before = page.colours(spot)
        page.click('#properties .choose-file')
        page.wait(lambda: page.texts('dialog[open]'), 'the chooser')
        names = page.texts('dialog .rows option')
        assert 'tiles.png' in names and not any(name.endswith(('.tmj', '.tsx', '.tsj')) for name in names), names
        Select(page.find('dialog .rows')).select_by_value('tiles.png')
        page.fill_in()
        assert spelled(page)[-1] == f'member set layer:{sky} image "tiles.png"'
        page.wait(lambda: page.colours(spot) != before, 'the image is drawn')
        for name in OF_IMAGES[1:]:
            field_of(page, name).click()
            page.settle()
            assert spelled(page)[-1] == f'member set layer:{sky}{name} true'
        field_of(page, ' repeatx').click()
        page.settle()
        assert spelled(page)[-1] == f'member remove layer:{sky} repeatx'
        assert page.texts('#steps li .name')[-1] == 'Reset Repeat X · Sky'
        put(page, ' image', Keys.DELETE)
        assert spelled(page)[-1] == f'member set layer:{sky} image ""'
        page.wait(lambda: page.colours(spot) == before, 'no image is drawn')


def test_names_for_readers():
    """Readers of the screen are told which field is which."""
    with Bench() as page:
        choose(page, 'Ground')
        told = page.js('return [...document.querySelectorAll("#properties tr :is(input, textarea)")].map(each => each.ariaLabel)')
        assert told == ['name', 'class', 'visible', 'locked', 'opacity, slider', 'opacity', 'tint', 'tint', 'offset, x', 'offset, y', 'parallax, x', 'parallax, y']
