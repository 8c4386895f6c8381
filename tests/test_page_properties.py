# SPDX-License-Identifier: MIT OR Apache-2.0
"""Sets properties of all types in the table of the page in Chromium: members of a class, names with spaces, texts that are
empty, long or of several lines, floats, the type of a value in its row, which stands still, an object by a click; and all of
these of several objects at once."""
import json

from lib.cases import passed
from page.bench import Bench, choose, middle_of, object_of, spelled, standing
from page.browser import Keys
from selenium.webdriver.support.ui import Select

NEEDS_BROWSER = True
INN, SIGN = 2, 3
# The most bytes of a line, as docs/session-lines.md says.
MOST = 65_535
GUARD = {'name': 'guard', 'type': 'class', 'propertytype': 'Guard', 'value': {'speed': 3, 'cry': 'halt', 'awake': False, 'post': {'x': 4}}}


def opened(bench, properties, name='kinds.tmj'):
    """The town whose map has these properties."""
    town = json.loads((bench.folder / 'town.tmj').read_text())
    (bench.folder / name).write_text(json.dumps({**town, 'properties': properties}))
    bench.page.choose_files(bench.folder / name, *bench.folder.glob('*.ts?'))
    bench.page.click('#of-map')


def field(page, name):
    return page.find(f'#properties [data-key="{name}"]')


def put(page, name, value):
    page.type_into(f'#properties [data-key="{name}"]', value)


def put_text(page, name, value):
    """Types a long text at once."""
    code = '''const at = arguments[0]; at.focus(); at.value = arguments[1]; at.dispatchEvent(new Event("input")); at.blur();
              at.dispatchEvent(new Event("change"))'''
    page.js(code, field(page, name), value)
    page.settle()


def property_of(page, name, owner=None):
    """A property as the map has it, of the map or of an object."""
    data = page.editor.map() if owner is None else object_of(page, owner)
    return next(each for each in data.get('properties', ()) if each['name'] == name)


def faults(page):
    return [text for text in page.texts('#properties .fault') if text]


def turn(page, name, kind):
    Select(page.find(f'#properties tr[data-property="{name}"] select.type')).select_by_visible_text(kind)
    page.settle()


def new(page, name, kind, *keys):
    page.find('#new-name').send_keys(name)
    Select(page.find('#new-type')).select_by_visible_text(kind)
    if keys:
        page.find('#new-value').send_keys(*keys)
    page.click('#add-property')


def test_classes():
    """Each member of a class has a field of its kind; all else of the class stays. A member is added and taken out; a new
    class has a name and no members."""
    bench = Bench(empty=True)
    with bench as page:
        opened(bench, [{**GUARD, 'note': 'kept'}])
        assert page.find('#properties tr[data-property="guard"] .value').text.startswith('Guard')
        value = dict(GUARD['value'])
        for name, path, typed in (('guard.speed', 'speed', 7), ('guard.cry', 'cry', 'who is there?')):
            put(page, name, typed)
            value[path] = typed
            assert property_of(page, 'guard') == {**GUARD, 'note': 'kept', 'value': value}, name
        page.js('arguments[0].click()', field(page, 'guard.awake'))
        page.settle()
        put(page, 'guard.post.x', -2)
        value |= {'awake': True, 'post': {'x': -2}}
        assert property_of(page, 'guard') == {**GUARD, 'note': 'kept', 'value': value} and standing(page) == (4, 4)
        page.click('#properties .add-member')
        page.fill_in(member='two words', type='yes or no')
        value['two words'] = False
        assert property_of(page, 'guard')['value'] == value
        page.js('[...document.querySelectorAll("#properties tr.member")].find(row => row.textContent.startsWith("cry")).querySelector("button").click()')
        page.settle()
        del value['cry']
        assert property_of(page, 'guard')['value'] == value and not page.driver.find_elements('css selector', '[data-key="guard.cry"]')
        new(page, 'door', 'class', 'Door')
        assert property_of(page, 'door') == {'name': 'door', 'type': 'class', 'propertytype': 'Door', 'value': {}}
        page.ctrl('z')
        page.ctrl('z')
        assert property_of(page, 'guard')['value'] == {**value, 'cry': 'who is there?'}


def test_names_and_texts():
    """A name has spaces; a text is empty, or has several lines, by Shift and Enter."""
    with Bench() as page:
        page.click('#of-map')
        new(page, 'two words', 'string', 'a', Keys.SHIFT + Keys.ENTER + Keys.NULL, 'b')
        assert property_of(page, 'two words') == {'name': 'two words', 'type': 'string', 'value': 'a\nb'}
        assert spelled(page)[-1].startswith('prop put map ')
        new(page, 'note', 'string')
        assert property_of(page, 'note')['value'] == ''
        new(page, 'none', 'color')
        assert property_of(page, 'none') == {'name': 'none', 'type': 'color', 'value': ''}
        put(page, 'two words', 'plain')
        assert property_of(page, 'two words')['value'] == 'plain'
        put(page, 'two words', Keys.DELETE)
        assert property_of(page, 'two words')['value'] == ''
        put_text(page, 'note', 'one\n\ntwo\tthree "four"')
        assert property_of(page, 'note')['value'] == 'one\n\ntwo\tthree "four"'
        assert field(page, 'note').get_property('value') == 'one\n\ntwo\tthree "four"'
        page.click('#properties tr[data-property="two words"] button')
        assert [each['name'] for each in page.editor.map()['properties']][-2:] == ['note', 'none']


def test_floats():
    """A float takes whole values and fractions; one of a file is shown."""
    bench = Bench(empty=True)
    with bench as page:
        opened(bench, [{'name': 'weight', 'type': 'float', 'value': 2.5}])
        assert field(page, 'weight').get_property('value') == '2.5'
        put(page, 'weight', '3')
        assert property_of(page, 'weight') == {'name': 'weight', 'type': 'float', 'value': 3}
        put(page, 'weight', '3,25')
        [weight] = page.editor.map_with_fractions()['properties']
        assert weight == {'name': 'weight', 'type': 'float', 'value': 3.25}
        new(page, 'chance', 'float', '1')
        assert property_of(page, 'chance') == {'name': 'chance', 'type': 'float', 'value': 1}
        new(page, 'far', 'int', '-2147483648')
        assert property_of(page, 'far')['value'] == -2147483648
        new(page, 'farther', 'int', '2147483648')
        assert 'from -2,147,483,648 to 2,147,483,647' in faults(page)[0]


def test_long_texts():
    """A text up to a line's length is set; a longer one is refused with how much it is too long, and one of a file is shown in
    part, told and kept."""
    bench = Bench(empty=True)
    with bench as page:
        longest = MOST - len('prop put map {"name":"note","type":"string","value":""}')
        kept = 'k' * (longest + 1)
        opened(bench, [{'name': 'note', 'type': 'string', 'value': 'v' * 60_000}, {'name': 'kept', 'type': 'string', 'value': kept}])
        assert field(page, 'note').get_property('value') == 'v' * 60_000
        put_text(page, 'note', 'w' * longest)
        assert property_of(page, 'note')['value'] == 'w' * longest
        put_text(page, 'note', 'x' * (longest + 2))
        assert faults(page) == ['too long by 2 letters'] and property_of(page, 'note')['value'] == 'w' * longest
        assert len(field(page, 'kept').get_property('value')) == 1025 and not field(page, 'kept').is_enabled()
        assert 'kept as it is' in page.find('#properties tr[data-property="kept"] .barred').text
        assert property_of(page, 'kept')['value'] == kept


def test_types_in_their_rows():
    """The type of a value is chosen in its row, which stays where it is; a value that is none of that type is the first of
    it. Nor does the row of a new property move while its type is chosen, or where something is wrong."""
    top = 'return document.querySelector(arguments[0]).getBoundingClientRect().top'
    with Bench() as page:
        page.click('#of-map')
        # The list of steps is as high as it will be.
        page.editor.lines(*(f'prop set map step{at} int 1' for at in range(4)))
        new(page, 'gold', 'string', '25')
        row = '#properties tr[data-property="gold"]'
        page.js('document.querySelector(arguments[0]).scrollIntoView({block: "center"})', row)
        at = page.js(top, row)
        for kind, value in (('int', 25), ('float', 25), ('bool', False), ('string', 'false'), ('object', 0), ('color', ''), ('file', ''), ('string', '')):
            turn(page, 'gold', kind)
            assert property_of(page, 'gold') == {'name': 'gold', 'type': kind, 'value': value}, kind
            assert page.js(top, row) == at, (kind, page.js(top, row), at)
            assert page.js('return document.activeElement.matches("select.type")'), 'the keys stay'
            passed()
        places = ['#new-name', '#new-type', '#add-property']
        before = [page.js(top, css) for css in places]
        for kind in ('color', 'object', 'file', 'class', 'int'):
            Select(page.find('#new-type')).select_by_visible_text(kind)
            assert [page.js(top, css) for css in places] == before, kind
            passed()
        page.find('#new-value').send_keys('x')
        page.click('#add-property')
        assert len(faults(page)) == 2 and [page.js(top, css) for css in places] == before
        frame = page.js('const {left, right} = document.querySelector("#properties .new-value .fault").getBoundingClientRect(); return [left, right, innerWidth]')
        assert 0 <= frame[0] and frame[1] <= frame[2], frame


def test_several_objects():
    """Of several objects a new property, a value, a type and a member of a class are set of each, as one step; a member that
    is not shared says so."""
    with Bench() as page:
        choose(page, 'Things')
        for number, speed in ((INN, 1), (SIGN, 2)):
            page.editor.lines(f'prop put object:{number} {json.dumps({**GUARD, "value": {"speed": speed, "awake": True}})}')
        page.js('roskevad.tools.choose("objects"); roskevad.bench.chooseObjects(arguments[0])', [INN, SIGN])
        page.settle()
        index = standing(page)[0]
        new(page, 'two words', 'string', 'x')
        assert standing(page)[0] == index + 1
        assert field(page, 'guard.speed').get_property('value') == '' and field(page, 'guard.speed').get_attribute('placeholder') == 'several values'
        put(page, 'guard.speed', '9')
        turn(page, 'two words', 'file')
        assert standing(page)[0] == index + 3
        for number in (INN, SIGN):
            assert property_of(page, 'guard', number)['value'] == {'speed': 9, 'awake': True}
            assert property_of(page, 'two words', number) == {'name': 'two words', 'type': 'file', 'value': 'x'}
        page.ctrl('z')
        page.ctrl('z')
        page.ctrl('z')
        assert [property_of(page, 'guard', number)['value']['speed'] for number in (INN, SIGN)] == [1, 2]


def test_pick_of_a_new_property():
    """The object of a new property is picked by a click on the map; the table stays about what it was about."""
    with Bench() as page:
        page.js('roskevad.tools.choose("objects"); roskevad.objects.choose(arguments[0])', SIGN)
        page.settle()
        page.find('#new-name').send_keys('opens')
        Select(page.find('#new-type')).select_by_visible_text('object')
        page.click('#properties .new .pick-object')
        page.drag_points([middle_of(page, INN)])
        page.click('#add-property')
        assert spelled(page)[-1] == f'prop set object:{SIGN} opens object {INN}'
        assert page.js('return roskevad.bench.objectIds') == [SIGN]
