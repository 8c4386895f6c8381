# SPDX-License-Identifier: MIT OR Apache-2.0
"""Types into the fields and dialogs of the page in Chromium: what each type of property takes, what
is refused and why, in the field's own terms, Escape and Ctrl+Z in a field, values that no line
sets, and the words for refused lines."""
import json
import random
import re

from lib.cases import passed
from lib.lines_at_fault import FOR_ALL_EDITS
from lib.maps import objects_in
from lib.refusals import refusal
from page.bench import Bench, choose, layer_of, middle_of, object_of, spelled, standing
from page.browser import ActionChains, Keys
from selenium.webdriver.support.ui import Select

NEEDS_BROWSER = True
IS_LONG = True

# Lines that are refused, each with the place of the word at fault and with words of what is wanted
# there, as docs/session-lines.md says what the words of a line are.
REFUSED = [
    ('prop set map a b string x', 5, 'string, int, bool, color, file or object'),
    ('prop set map a string ', 6, 'is empty'),
    ('prop set map a color #FF0000', 6, '6 or 8 of the digits'),
    ('prop set map a color red', 6, '6 or 8 of the digits'),
    ('prop set map a bool yes', 6, 'true or false'),
    ('prop set map a int 1.5', 6, 'a whole number'),
    ('prop set map a int 01', 6, 'a whole number'),
    ('prop set map a float 1', 5, 'string, int, bool, color, file or object'),
    ('prop set layer a int 1', 3, 'layer: or object: and an id'),
    ('layer rename 1 ', 4, 'is empty'),
    ('layer show 1 perhaps', 4, 'yes or no'),
    ('object move 1 1000000001 0', 4, 'from -1000000000 to 1000000000'),
    ('object resize 1 -3 4', 4, 'from 0 to'),
    ('stamp 1 0 0 2 5,6,7', 6, 'rows of 2'),
    ('stamp 1 0 0 1 05', 6, 'numbers joined by commas'),
    ('stamp 1 0 0 4097 5', 5, 'from 1 to 4096'),
    ('tile 1 -0 0', 3, 'from -1000000000'),
    ('goto', 2, 'is missing'),
    ('undo x', 2, 'one too many'),
    ('undo ', 2, 'is empty'),
    ('begin A || ', 4, 'is empty'),
    ('open a ../b', 3, 'of A-Z a-z 0-9'),
    ('new my map 4 4 4 4 t', 3, 'a whole number'),
    ('fill+ 1 0 0 5', 1, 'not a command'),
    ('Undo', 1, 'not a command'),
]


def field_of(page, name):
    return page.find(f'#properties [data-key="{name}"]')


def value_of(page, name):
    return field_of(page, name).get_attribute('value')


def faults(page):
    return [text for text in page.texts('#properties .fault') if text]


def type_keys(page, *keys):
    """Types where the keys go by now."""
    ActionChains(page.driver).send_keys(*keys).perform()
    page.js('return new Promise(done => setTimeout(done, 50))')
    page.settle()


def with_ctrl(page, key, *more):
    """Presses a key with Ctrl, in the field that has the keys."""
    chain = ActionChains(page.driver)
    for each in (Keys.CONTROL, *more):
        chain.key_down(each)
    chain.send_keys(key)
    for each in (Keys.CONTROL, *more):
        chain.key_up(each)
    chain.perform()
    page.js('return new Promise(done => setTimeout(done, 50))')
    page.settle()


def property_of(tree, name):
    return next(each for each in tree['properties'] if each['name'] == name)


def test_words_of_refusals():
    """Of a line with a bad word the page says which word that is and what is wanted, at the box and
    in the list of lines."""
    with Bench() as page:
        for line, place, wanted in REFUSED:
            page.js('roskevad.bench.act([arguments[0]])', line)
            page.settle()
            told = page.find('#bubble').text
            listed = page.texts('#lines li:last-child .why')[0]
            number = int(re.search(r'Word (\d+)', told)[1])
            assert number == place and wanted in told, (line, told)
            assert f'Word {place}' in listed, (line, listed)
        page.say('prop set map a bool yes')
        assert "'yes'" in page.bubble() and 'prop set OWNER KEY bool true|false' in page.bubble()
        assert not spelled(page)


def test_word_at_fault():
    """Of lines with one word at fault, of each form at each word, the page names that word."""
    made = [*FOR_ALL_EDITS.lines_at_fault(random.Random(66))]
    lines = [' '.join(words) for words, _, _ in made]
    with Bench() as page:
        told = page.js(
            '''const told = [], {editor} = roskevad;
               editor.addEventListener("lines", ({detail}) => told.push(...detail), {once: true});
               editor.doLines(arguments[0], {isFree: true});
               return told.map(([, , reply, why]) => [reply, why]);''',
            lines,
        )
        page.settle()
    assert len(told) == len(lines)
    for line, (_, fault, _), (reply, why) in zip(lines, made, told):
        assert reply == refusal(4) and why.startswith(f'Word {fault + 1}'), (line, why)
    passed(len(lines))


def test_ctrl_z():
    """Ctrl+Z in a field undoes the typing, and where nothing is typed the map's last step, which
    the field then shows; no line follows as the field is left."""
    with Bench() as page:
        page.find('#of-map').click()
        field_of(page, 'people').click()
        type_keys(page, Keys.END, '5')
        assert value_of(page, 'people') == '125'
        with_ctrl(page, 'z')
        assert value_of(page, 'people') == '12' and not spelled(page)
        type_keys(page, Keys.BACKSPACE, '3', Keys.ENTER)
        assert spelled(page) == ['prop set map people int 13']
        with_ctrl(page, 'z')
        assert value_of(page, 'people') == '12' and standing(page) == (0, 1)
        with_ctrl(page, 'z', Keys.SHIFT)
        assert value_of(page, 'people') == '13' and standing(page) == (1, 1)
        with_ctrl(page, 'z')
        type_keys(page, Keys.TAB)
        assert spelled(page)[1:] == ['undo', 'redo', 'undo'] and standing(page) == (0, 1)


def test_refused_values():
    """A refused value is marked and says why; nothing is sent; it stays while others are set, and
    Escape brings the old one back."""
    with Bench() as page:
        page.find('#of-map').click()
        for typed in ('many', '1.5', ''):
            page.type_into('#properties [data-key="people"]', typed or Keys.DELETE)
            assert faults(page) == ['a whole number'] and value_of(page, 'people') == typed, typed
        page.type_into('#properties [data-key="people"]', '9999999999')
        assert faults(page) == ['a whole number from -2,147,483,648 to 2,147,483,647']
        page.type_into('#properties [data-key="music"]', 'harp.ogg')
        assert spelled(page) == ['prop set map music file harp.ogg']
        assert value_of(page, 'people') == '9999999999' and len(faults(page)) == 1
        field_of(page, 'people').send_keys(Keys.ESCAPE)
        assert value_of(page, 'people') == '12' and not faults(page)
        page.type_into('#properties [data-key="people"]', '007')
        assert spelled(page)[-1] == 'prop set map people int 7'
        page.keys('s')
        page.drag_points([middle_of(page, 2)])
        page.type_into('#properties [data-key=" x"]', 'left')
        assert faults(page) == ['a number'] and object_of(page, 2)['x'] == 128
        field_of(page, ' x').send_keys(Keys.ESCAPE)
        assert value_of(page, ' x') == '128'
        page.type_into('#properties [data-key=" width"]', '-3')
        assert 'from 0 to' in faults(page)[0] and len(spelled(page)) == 2
        field_of(page, ' width').send_keys(Keys.ESCAPE)
        page.type_into('#properties [data-key=" x"]', '130.5')
        assert not faults(page) and spelled(page)[-1] == 'member set object:2 x 130.5' and value_of(page, ' x') == '130.5'
        page.type_into('#properties [data-key=" x"]', '130')
        assert value_of(page, ' x') == '130', 'the fraction does not come back'


def test_name_class_and_rotation():
    """An object's name, class and rotation are fields. Each is set by one line, which is a step that the page
    names, and that the journal keeps; what is refused, Escape and Ctrl+Z are as in other fields."""
    names = (' name', ' class', ' rotation')

    def shown(page):
        return [value_of(page, name) for name in names]

    with Bench() as page:
        page.keys('s')
        page.drag_points([middle_of(page, 2)])
        inn = object_of(page, 2)
        assert shown(page) == ['Inn', 'Door', '0'] == [inn['name'], inn['type'], str(inn['rotation'])]
        for name, typed in zip(names, ('The "Inn" \\ ü', 'House', '045')):
            page.type_into(f'#properties [data-key="{name}"]', typed)
        lines = [r'member set object:2 name "The \"Inn\" \\ ü"', 'member set object:2 type "House"', 'member set object:2 rotation 45']
        assert spelled(page) == lines and standing(page) == (3, 3)
        assert object_of(page, 2) == {**inn, 'name': 'The "Inn" \\ ü', 'type': 'House', 'rotation': 45}
        assert page.texts('#owner') == ['The "Inn" \\ ü'] and page.texts('#objects .now .name') == ['The "Inn" \\ ü']
        assert page.texts('#steps li .name')[-3:] == [f'Set {what.strip().capitalize()} · The "Inn" \\ ü' for what in names]
        page.reload()
        assert page.editor.state()['count'] == 3 and object_of(page, 2)['rotation'] == 45
        page.keys('s')
        page.drag_points([middle_of(page, 2)])
        for typed in ('north', ''):
            page.type_into('#properties [data-key=" rotation"]', typed or Keys.DELETE)
            assert faults(page) == ['a number'] and value_of(page, ' rotation') == typed, typed
        field_of(page, ' rotation').send_keys(Keys.ESCAPE)
        assert value_of(page, ' rotation') == '45' and not faults(page)
        page.type_into('#properties [data-key=" name"]', 'x' * 201)
        assert 'at most 200 letters' in faults(page)[0] and spelled(page) == lines
        field_of(page, ' name').send_keys(Keys.ESCAPE)
        page.js('arguments[0].value = "a\\ud800"; arguments[0].dispatchEvent(new Event("change"))', field_of(page, ' name'))
        page.settle()
        assert 'half of one' in faults(page)[0] and spelled(page) == lines
        field_of(page, ' name').send_keys(Keys.ESCAPE)
        field_of(page, ' rotation').click()
        type_keys(page, Keys.ARROW_UP)
        assert spelled(page)[3:] == ['member set object:2 rotation 46'] and value_of(page, ' rotation') == '46'
        with_ctrl(page, 'z')
        assert shown(page) == ['The "Inn" \\ ü', 'House', '45'] and standing(page) == (3, 4)
        for name in names[:2]:
            page.type_into(f'#properties [data-key="{name}"]', Keys.DELETE)
        assert spelled(page)[-2:] == ['member set object:2 name ""', 'member set object:2 type ""']
        assert page.texts('#owner') == ['Object 2'] and shown(page) == ['', '', '45']


def test_classes():
    """The map and the layer in hand have a field for their class, each edit of which is a step."""
    with Bench() as page:
        choose(page, 'Ground')
        ground = layer_of(page, 'Ground')
        assert page.texts('#owner') == ['Ground'] and value_of(page, ' class') == ground.get('class', '')
        page.type_into('#properties [data-key=" class"]', 'floor')
        page.click('#of-map')
        assert value_of(page, ' class') == ''
        page.type_into('#properties [data-key=" class"]', 'level "1"')
        assert spelled(page) == [f'member set layer:{ground["id"]} class "floor"', r'member set map class "level \"1\""'] and standing(page) == (2, 2)
        assert page.texts('#steps li .name')[-2:] == ['Set Class · Ground', 'Set Class']
        with_ctrl(page, 'z')
        assert value_of(page, ' class') == '' and standing(page) == (1, 2)


def test_another_grid():
    """A map whose tiles get another size by a line is drawn in that size, and back again by its undo."""
    with Bench() as page:
        size = 'return [roskevad.editor.map.tileWidth, roskevad.editor.map.projection.width]'
        wide = page.js('return roskevad.editor.map.width')
        page.say('member set map tilewidth 24')
        assert page.js(size) == [24, 24 * wide]
        with_ctrl(page, 'z')
        assert page.js(size) == [16, 16 * wide]


def test_names_that_files_have():
    """A class that a file calls `class` is set there. A fraction of a rotation is shown. A name that is longer than
    what is shown is barred, with a word."""
    bench = Bench(empty=True)
    with bench as page:
        town = json.loads((bench.folder / 'town.tmj').read_text())
        objects = {each['id']: each for each in objects_in(town)}
        objects[2].update({'class': objects[2].pop('type'), 'rotation': 22.5})
        objects[3]['name'] = 'a' * 300
        (bench.folder / 'kinds.tmj').write_text(json.dumps(town))
        page.choose_files(bench.folder / 'kinds.tmj', *bench.folder.glob('*.ts?'))
        page.keys('s')
        page.click('#objects li[data-object="2"]')
        assert (value_of(page, ' class'), value_of(page, ' rotation')) == ('Door', '22.5')
        page.type_into('#properties [data-key=" class"]', 'House')
        assert spelled(page) == ['member set object:2 class "House"'] and value_of(page, ' class') == 'House'
        page.type_into('#properties [data-key=" rotation"]', '90')
        assert spelled(page)[1:] == ['member set object:2 rotation 90'] and value_of(page, ' rotation') == '90'
        page.click('#objects li[data-object="3"]')
        assert not page.js('return document.querySelector(\'#properties [data-key=" name"]\')')
        assert any('Tiled' in text for text in page.texts('#properties .barred'))
        page.double_click(lambda: page.find('#objects li[data-object="3"]'), page.bubble)
        assert 'Tiled' in page.bubble() and len(spelled(page)) == 2


def test_numbers_of_objects():
    """Place, size and rotation are shown as the file has them. Enter sets what was typed, a fraction with a point or a comma, as one step;
    Escape brings back what the map has; Ctrl+Z undoes the typing, and then the step. The space bar turns whether the object is seen, and Tab leaves that field."""
    numbers = {'x': 12.25, 'y': 40.5, 'width': 30.125, 'height': 20.75, 'rotation': 22.5}
    bench = Bench(empty=True)
    with bench as page:
        town = json.loads((bench.folder / 'town.tmj').read_text())
        next(each for each in objects_in(town) if each['id'] == 2).update(numbers)
        (bench.folder / 'between.tmj').write_text(json.dumps(town))
        page.choose_files(bench.folder / 'between.tmj', *bench.folder.glob('*.ts?'))
        page.keys('s')
        page.click('#objects li[data-object="2"]')
        now = lambda: next(each for each in objects_in(page.editor.map_with_fractions()) if each['id'] == 2)
        shown = lambda: {name: float(value_of(page, f' {name}')) for name in numbers}
        assert shown() == numbers
        for at, (name, was) in enumerate(numbers.items()):
            field_of(page, f' {name}').click()
            with_ctrl(page, 'a')
            type_keys(page, f'7{",."[at % 2]}5', Keys.ESCAPE)
            assert shown() == numbers and standing(page) == (0, at and 1), name
            with_ctrl(page, 'a')
            type_keys(page, f'7{",."[at % 2]}5', Keys.ENTER)
            assert shown() == {**numbers, name: 7.5} and now()[name] == 7.5 and standing(page) == (1, 1) and not faults(page), name
            type_keys(page, '3')
            with_ctrl(page, 'z')
            assert value_of(page, f' {name}') == '7.5' and standing(page) == (1, 1), name
            with_ctrl(page, 'z')
            assert shown() == numbers and now()[name] == was and standing(page) == (0, 1), name
        page.js('arguments[0].focus()', field_of(page, ' visible'))
        type_keys(page, Keys.SPACE)
        assert now()['visible'] is False and standing(page) == (1, 1)
        with_ctrl(page, 'z')
        assert now()['visible'] is True and field_of(page, ' visible').is_selected() and standing(page) == (0, 1)
        type_keys(page, Keys.TAB)
        assert page.js('const at = document.activeElement; return at.closest("#properties") !== null && at.dataset.key !== " visible"'), 'Tab goes on'


def test_fields_of_types():
    """A bool is a checkbox; a colour has a picker that keeps its alpha; a file has a chooser among
    the folder's files; an object has a list of them."""
    with Bench() as page:
        page.find('#of-map').click()
        field_of(page, 'night').click()
        page.settle()
        assert spelled(page)[-1] == 'prop set map night bool true'
        page.click('#properties tr[data-property="music"] .choose-file')
        page.wait(lambda: page.texts('dialog[open]'), 'the chooser')
        names = page.texts('dialog .rows option')
        assert {'town.tmj', 'house.tmj', 'tiles.png', 'furniture.tsx'} <= set(names), names
        Select(page.find('dialog .rows')).select_by_value('house.tmj')
        page.fill_in()
        assert spelled(page)[-1] == 'prop set map music file house.tmj'
        page.keys('s')
        page.drag_points([middle_of(page, 3)])
        field_of(page, 'key').click()
        Select(field_of(page, 'key')).select_by_value('2')
        page.settle()
        assert spelled(page)[-1] == 'prop set object:3 key object 2'
        page.click('#objects li[data-object="4"]')
        pick = 'arguments[0].value = "#123456"; arguments[0].dispatchEvent(new Event("change"))'
        page.js(pick, page.find('#properties input[type=color]'))
        page.settle()
        assert spelled(page)[-1] == 'prop set object:4 colour color #ff123456'
        page.type_into('#properties [data-key="colour"]', '#80FF00AA')
        assert spelled(page)[-1] == 'prop set object:4 colour color #80ff00aa'
        page.js(pick, page.find('#properties input[type=color]'))
        page.settle()
        assert spelled(page)[-1] == 'prop set object:4 colour color #80123456'
        page.type_into('#properties [data-key="colour"]', 'red')
        assert '#rrggbb' in faults(page)[0]


def test_values_that_no_line_sets():
    """A list and a type that Tiled does not have are shown, barred, with a word. A long value is seen whole, without a
    bar to scroll."""
    bench = Bench(empty=True)
    with bench as page:
        town = json.loads((bench.folder / 'town.tmj').read_text())
        long = 'the quick brown fox jumps over the lazy dog, and back again over the same dog'
        town['properties'] = [
            {'name': 'all', 'type': 'list', 'value': [1, 2]},
            {'name': 'odd', 'type': 'shape', 'value': 4},
            {'name': 'saying', 'type': 'string', 'value': long},
        ]
        (bench.folder / 'kinds.tmj').write_text(json.dumps(town))
        page.choose_files(bench.folder / 'kinds.tmj', *bench.folder.glob('*.ts?'))
        page.find('#of-map').click()
        for name, shown, why in (
            ('all', '1,2', 'list'),
            ('odd', '4', 'type shape'),
        ):
            field, row = field_of(page, name), f'#properties tr[data-property="{name}"]'
            assert field.get_attribute('value') == shown and not field.is_enabled(), name
            assert why in page.find(f'{row} .barred').text, name
        saying = field_of(page, 'saying')
        assert saying.get_attribute('value') == long
        sizes = '[arguments[0].scrollHeight - arguments[0].clientHeight, arguments[0].clientHeight]'
        over, high = page.js(f'return {sizes}', saying)
        assert over <= 0 and high > 30, (over, high)


def test_new_property():
    """A new property's name and value are checked at their fields before a line is sent."""
    with Bench() as page:
        page.find('#of-map').click()
        name = page.find('#new-name')
        name.send_keys('n' * 201)
        page.find('#new-value').send_keys('x', Keys.ENTER)
        page.settle()
        assert 'at most 200' in faults(page)[0] and 'wrong' in name.get_attribute('class')
        name.clear()
        name.send_keys('weather')
        assert not faults(page), 'the mark goes with the next key'
        for kind, value, why in (
            ('int', '1.5', 'a whole number'),
            ('color', 'red', '#rrggbb'),
        ):
            Select(page.find('#new-type')).select_by_visible_text(kind)
            page.find('#new-value').clear()
            page.find('#new-value').send_keys(value)
            page.click('#add-property')
            assert why in faults(page)[0] and not spelled(page), kind
        page.find('#new-value').send_keys(Keys.CONTROL, 'a')
        page.find('#new-value').send_keys(Keys.NULL, '#FF0000', Keys.ENTER)
        page.settle()
        assert spelled(page) == ['prop set map weather color #ff0000']
        assert page.find('#new-name').get_attribute('value') == ''



def test_row_of_a_new_property():
    """Tab goes from the name to the value, the type and the button; a value stays where the type is chosen
    behind it; the type is the usual one again behind a property that was set. All of it is seen in a low,
    narrow window."""
    low = {'width': 853, 'height': 480, 'deviceScaleFactor': 1.5, 'mobile': False}
    with Bench(has_log=False) as page:
        page.driver.execute_cdp_cmd('Emulation.setDeviceMetricsOverride', low)
        try:
            page.click('#of-map')
            code = '''const panel = document.getElementById("panel-properties").getBoundingClientRect();
                      return ["new-name", "new-value", "new-type", "add-property"].map(id => document.getElementById(id)).filter(at => {
                        const {left, top, right, bottom} = at.getBoundingClientRect();
                        const over = document.elementFromPoint((left + right) / 2, (top + bottom) / 2);
                        return left < panel.left || right > panel.right || top < panel.top || bottom > panel.bottom || over !== at;
                      }).map(at => at.id)'''
            assert page.js(code) == [], 'all is seen'
            rows = 'const {clientWidth, clientHeight, scrollWidth} = document.getElementById("property-box"); return [clientHeight, scrollWidth - clientWidth]'
            high, over = page.js(rows)
            assert high >= 28 and over <= 0, (high, over)
        finally:
            page.driver.execute_cdp_cmd('Emulation.clearDeviceMetricsOverride', {})
        page.find('#new-name').click()
        order = []
        type_keys(page, 'gold', Keys.TAB, '25', Keys.TAB)
        order.append(page.js('return document.activeElement.id'))
        Select(page.find('#new-type')).select_by_visible_text('int')
        assert page.find('#new-value').get_attribute('value') == '25'
        page.find('#new-type').send_keys(Keys.TAB)
        order.append(page.js('return document.activeElement.id'))
        assert order == ['new-type', 'add-property'], order
        type_keys(page, Keys.ENTER)
        assert spelled(page) == ['prop set map gold int 25']
        assert page.find('#new-type').get_attribute('value') == 'string'


def test_double_click():
    """A double click at '+' sets one property, and leaves it: the button that comes below the hand
    removes nothing by the second press."""
    with Bench() as page:
        page.find('#new-name').send_keys('gold')
        page.find('#new-value').send_keys('x')
        ActionChains(page.driver).double_click(page.find('#add-property')).perform()
        page.settle()
        assert spelled(page) == ['prop set map gold string x']


def test_height_of_a_text():
    """A text is as high as its rows, also where the panel gets another width."""
    with Bench() as page:
        # Its height, and how high its rows are.
        told = '''const at = document.querySelector('#properties [data-key="author"]'), before = at.style.cssText, {clientHeight} = at;
                  Object.assign(at.style, {height: "0", minHeight: "0", overflow: "hidden"});
                  const {scrollHeight} = at;
                  at.style.cssText = before;
                  return [clientHeight, Math.max(24, scrollHeight)];'''
        heights = {}
        for width in (310, 280, 250, 200, 420):
            page.js('roskevad.panels.widen("left", arguments[0])', width)
            page.settle()
            page.wait(lambda: page.js(told)[0] == page.js(told)[1], f'its height for {width}')
            heights[width] = page.js(told)[0]
        assert heights[200] > heights[420], heights


def test_dialogs():
    """A dialog selects its text, stays open on a refusal, and marks the field at fault; what was
    typed stays."""
    with Bench() as page:
        page.find('#new').click()
        page.wait(lambda: page.texts('dialog[open]'), 'a dialog')
        type_keys(page, 'my map')
        assert page.find('dialog [name=name]').get_attribute('value') == 'my map'
        page.fill_in()
        assert page.texts('dialog[open]') and '1 to 64' in page.find('dialog .fault').text
        page.fill_in(name='town')
        assert 'has this name already' in page.find('dialog .fault').text, page.texts('dialog .fault')
        assert 'wrong' in page.find('dialog [name=name]').get_attribute('class')
        page.fill_in(name='field', width='5000')
        assert '4,096' in page.find('dialog label:nth-of-type(2) .fault').text
        page.fill_in(width='4096', height='4096')
        assert 'at most 1,048,576 cells' in page.texts('dialog p.fault')[0]
        page.fill_in(width='8', height='7')
        assert page.editor.state()['active'] == 'field' and not page.texts('dialog[open]')
        page.find('#resize').click()
        page.fill_in(width='5000')
        assert '4,096' in page.find('dialog .fault').text
        assert page.find('dialog [name=width]').get_attribute('value') == '5000'
        page.fill_in('Cancel')
        page.find('#save-as').click()
        page.fill_in(file='field.tsx')
        assert '.tmj' in page.find('dialog .fault').text
        page.fill_in('Cancel')
        page.click('#macro')
        assert 'the last edit of the macro' in page.find('#undo').get_attribute('title')
