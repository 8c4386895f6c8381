# SPDX-License-Identifier: MIT OR Apache-2.0
"""Works with documents on the page in Chromium: steps, macros, files, refusals, the box of lines,
sessions that are copied and played, the page loaded anew, and two windows. Most is done on the one
file, and files and sessions also on what `./tile_page` serves."""
import json

from lib.cases import passed
from lib.map_layouts import lines_changed
from lib.maps import compact, layers_in
from lib.places import EXAMPLE_MAPS
from lib.refusals import refusal
from page.bench import Bench, cell, cells_with, choose, layer_of, played, see_colours, spelled, standing, take_tile
from page.browser import Keys

NEEDS_BROWSER = True
IS_LONG = True


def test_turns():
    """Undo and redo by keys, a click on a step, and the list of steps."""
    with Bench() as page:
        ground = choose(page, 'Ground')
        take_tile(page, (5, 0))
        for x in (3, 5, 7):
            page.drag([(x, 20)])
        for left in (2, 1):
            page.ctrl('z')
            assert standing(page) == (left, 3)
        page.ctrl('z', Keys.SHIFT)
        assert standing(page) == (2, 3)
        page.ctrl('y')
        assert standing(page) == (3, 3)
        page.click('#steps li[data-place="1"]')
        assert (
            standing(page) == (1, 3)
            and spelled(page)[-1] == 'goto 1'
            and cell(page, ground, 5, 20) != 6
        )
        assert page.find('#steps li.now').get_attribute('data-place') == '1'
        assert len(page.texts('#steps li.undone')) == 2
        page.click('#undo')
        assert standing(page) == (0, 3) and not page.find('#undo').is_enabled()
        page.click('#redo')
        see_colours(page, [(3, 20), (5, 20), (7, 20)])


def test_macro():
    """A macro from begin to end by its button is one step, and the list says so."""
    with Bench() as page:
        choose(page, 'Ground')
        take_tile(page, (3, 1))
        page.find('#macro-name').clear()
        page.find('#macro-name').send_keys('Fence || build a fence')
        page.click('#macro')
        page.drag([(3, 20), (6, 20)])
        page.drag([(3, 22), (6, 22)])
        state = page.editor.state()
        assert state['depth'] == 1 and 'End macro' in page.find('#macro').text, (
            state['depth'],
            spelled(page),
        )
        page.reload()
        assert (
            'End macro' in page.find('#macro').text
        ), 'a page that is loaded anew knows the open macro'
        page.click('#macro')
        state = page.editor.state()
        assert state['depth'] == 0 and [
            (step['text'], step['isMacro']) for step in state['steps']
        ] == [('Fence', True)]
        assert page.texts('#steps li .kind')[-1] == 'macro'


def work_with_files(bench):
    """Save, save as, open, and close with a question; the saved mark at tabs and steps."""
    with bench as page:
        choose(page, 'Ground')
        take_tile(page, (3, 1))
        page.drag([(3, 20)])
        assert page.texts('.tab.unsaved') and not page.editor.state()['isClean']
        page.ctrl('s')
        assert spelled(page)[-1] == 'save town.tmj' and not page.texts('.tab.unsaved')
        assert page.texts('#steps li .clean')[-1] == 'saved'
        town = bench.saved('town.tmj')
        assert compact(town) == page.editor.shown()
        assert lines_changed((EXAMPLE_MAPS / 'town.tmj').read_bytes(), town) == (1, 1), 'its layout stays'
        page.ctrl('s')
        assert spelled(page)[-1] == 'save town.tmj' and len(spelled(page)) == 2
        assert 'saved already' in page.bubble(), 'a map that is saved is not written'
        page.drag([(4, 20)])
        page.ctrl('s', Keys.SHIFT)
        page.fill_in(file='town2.tmj')
        other = bench.saved('town2.tmj')
        assert compact(other) == page.editor.shown() and lines_changed(town, other) == (1, 1)
        page.ctrl('o')
        page.fill_in(file='layers.tmj')
        assert [each['name'] for each in page.editor.state()['documents']] == ['town', 'layers']
        page.drag([(0, 0), (3, 0)])
        page.find('.tab[data-document="layers"] .close').click()
        page.fill_in('Cancel')
        assert len(page.editor.state()['documents']) == 2
        page.click('.tab[data-document="town"]')
        assert page.editor.state()['active'] == 'town'
        page.find('.tab[data-document="layers"] .close').click()
        before = (EXAMPLE_MAPS / 'layers.tmj').read_bytes()
        page.fill_in('Save and close')
        page.wait(
            lambda: [each['name'] for each in page.editor.state()['documents']] == ['town'],
            'it is closed once it is saved',
        )
        assert lines_changed(before, bench.saved('layers.tmj')) == (1, 1)
        page.click('.tab[data-document="town"]')
        page.drag([(6, 20)])
        page.find('.tab[data-document="town"] .close').click()
        page.fill_in('Discard')
        assert page.editor.state()['documents'] == [] and page.find('#empty').is_displayed()
        page.click('#new')
        page.fill_in(name='small', width=5, height=4)
        assert page.editor.state()['active'] == 'small'


def test_files():
    """Saves are downloads, of which the page says so beside the button."""
    bench = Bench()
    assert bench.page.find('#save-hint').text == 'saves are downloads'
    work_with_files(bench)


def test_files_of_a_folder():
    bench = Bench(served=True)
    assert bench.page.find('#save-hint').text == ''
    work_with_files(bench)


def test_refusals():
    """A refusal is said in words where the hand is, and nothing changes. On a layer without tiles it is said
    what is missing, and nothing is shown under the hand."""
    with Bench() as page:
        things = next(
            layer['name']
            for layer in layers_in(page.editor.map()['layers'])
            if layer['type'] == 'objectgroup'
        )
        choose(page, things)
        before, count = page.editor.map(), standing(page)
        page.keys('b')
        page.drag([(3, 20), (9, 20)])
        place = page.js(
            'const box = document.getElementById("bubble").getBoundingClientRect(); return [box.left, box.top]'
        )
        hand = page.point((3, 20))
        assert page.js('return roskevad.overlay.hand') is None
        assert (
            page.bubble() == f'{things} has objects and no tiles. Choose a tile layer to draw.'
            and abs(place[0] - hand[0]) < 160
            and abs(place[1] - hand[1]) < 60
        ), (place, hand)
        choose(page, 'Ground')
        page.js('roskevad.bench.takeStamp({width: 1, height: 1, values: [0x0fffffff]})')
        page.js('roskevad.editor.map.data.tilesets.length')
        page.say('frobnicate 1')
        assert 'There is no such line' in page.bubble()
        assert page.editor.map() == before and standing(page) == count and not spelled(page)
        refused = page.texts('#lines li.refused .reply')
        assert refused == [refusal(3)], refused


def test_never_saved():
    """A new map is not saved yet until it is saved: not in the bar, and not in the steps."""
    with Bench(empty=True) as page:
        page.say('new cave 5 4 16 16 tiles.tsx')
        assert page.find('#standing').text == 'not saved yet' and page.texts('#steps li .clean') == ['']
        page.ctrl('s')
        page.fill_in(file='cave.tmj')
        assert page.find('#standing').text == 'saved' and page.texts('#steps li .clean') == ['saved']


def test_box():
    """The box has a history and completes words."""
    with Bench() as page:
        box = page.find('#line')
        box.send_keys('und', Keys.TAB)
        page.wait(lambda: box.get_attribute('value') in ('undo', 'undo '), 'the word is completed')
        box.clear()
        box.send_keys('open x lay', Keys.TAB)
        page.wait(
            lambda: box.get_attribute('value').strip() == 'open x layers.tmj',
            'the file is completed',
        )
        box.send_keys(Keys.BACKSPACE, Keys.ENTER)
        page.settle()
        box.send_keys('status', Keys.ENTER, Keys.ARROW_UP, Keys.ARROW_UP)
        assert box.get_attribute('value') == 'open x layers.tmj'
        page.settle()
        assert page.texts('#lines li code')[-2:] == ['open x layers.tmj', 'status']
        assert page.texts('#lines li .reply')[-1] == 'ok 0/0 clean 0'


def work_on(page):
    """Strokes, macros, undone steps, refused lines, another document between them, and saves."""
    choose(page, 'Ground')
    take_tile(page, (3, 1))
    for y in (20, 21, 22):
        page.drag([(3, y), (8, y)])
    page.ctrl('z')
    page.say('frobnicate')
    page.say('tile 1 0 0')
    page.click('#macro')
    page.drag([(10, 20), (10, 25)])
    page.click('#macro')
    page.ctrl('s')
    page.say('open other layers.tmj')
    page.drag([(0, 0), (3, 0)])
    page.click('.tab[data-document="town"]')
    page.keys('e')
    page.drag([(12, 20), (12, 25)])
    for line in (
        'prop set map mood string calm',
        'undo',
        'redo',
        'resize 41 30 0 0',
        'save end.tmj',
    ):
        page.say(line)


def copied(page):
    """What 'Copy as session' puts on the clipboard."""
    origin = '' if page.address.startswith('file:') else page.address.split('/?')[0]
    rights = {'permissions': ['clipboardReadWrite', 'clipboardSanitizedWrite']}
    page.driver.execute_cdp_cmd(
        'Browser.grantPermissions', {**rights, **({'origin': origin} if origin else {})}
    )
    page.click('#copy')
    return page.js('return navigator.clipboard.readText()')


def copy_and_play(bench):
    with bench as page:
        work_on(page)
        session = copied(page)
        assert (
            session.encode() == page.editor.session()
            and 'frob' not in session
            and 'other' not in session
        )
        folder = played(bench, session.encode(), EXAMPLE_MAPS)
        for name in ('end.tmj', 'town.tmj'):
            assert compact((folder / name).read_bytes()) == compact(bench.saved(name))
        passed(len(session.splitlines()))


def test_session():
    """'Copy as session' is played by the program to the same maps."""
    copy_and_play(Bench())


def test_session_of_a_folder():
    """The same with a limit."""
    copy_and_play(Bench(limit=6, served=True))


def test_session_of_own_members():
    """A session with lines of own members says at its front that it is for all edits, and is played by the
    program for all edits to the same map; its edits are played on the page as one step. The log words
    each of them, and so do the steps."""
    lines = ['member set object:2 rotation 45', 'member set+ object:2 rotation 90', 'member put object:2 {"name":"Gate","x":32}',
             'member remove object:3 type']
    bench = Bench()
    with bench as page:
        assert not copied(page).startswith('#')
        before = page.editor.shown()
        for line in lines:
            page.editor.lines(line)
        assert page.texts('#steps li .name')[-3:] == [
            'Set Rotation · Gate', 'Set Name, X · Gate', 'Reset Class · Smithy',
        ]
        told = ['Set rotation of Inn', 'Set name, x of Inn', 'Remove class of Smithy']
        assert [text for text in page.texts('#lines li .words') if text][-3:] == told
        page.say('member set object:2')
        assert 'That line is not as it has to be' in page.bubble() and 'member set OWNER KEY JSON' in page.bubble()
        page.say('save end.tmj')
        session = copied(page)
        assert session.splitlines()[0] == '# all edits, all maps' and session.count('#') == 1, session
        folder = played(bench, session.encode(), EXAMPLE_MAPS, '--all-edits')
        assert compact((folder / 'end.tmj').read_bytes()) == compact(bench.saved('end.tmj'))
        after = page.editor.shown()
        page.editor.lines('goto 0')
        assert page.editor.shown() == before
        play(page, '\n'.join(['# all edits, all maps', *lines]))
        assert page.editor.shown() == after and standing(page) == (1, 1)


# The other lines that are for all edits, and what the log and the steps say of each.
OF_ALL_EDITS = {
    'layer add group The yard': ('Add group layer The yard', 'Add Layer · The yard'),
    'layer add image Sky': ('Add image layer Sky', 'Add Layer · Sky'),
    'object put 2 {"name":"Bell tower","polygon":[{"x":0,"y":0},{"x":8,"y":8}]}': ('Add object Bell tower', 'Add Object · Bell tower'),
    'object put 2 {}': ('Add object without a name', 'Add Object · object 2'),
    'prop take object:1 "a"': ('Remove a of door', 'Remove Property · door: a'),
    'prop put object:1 {"name":"two words","value":"a"}': ('Set two words of door', 'Set Property · door: two words'),
    'object into 1 2 0': ('Move door into Things', 'Move Object · door'),
    'layer into 2 0 0': ('Move layer Things out of all groups', 'Move Layer · Things'),
    'extend 1 0 0 2': ('Add room to the map: 1 left, 2 bottom', 'Resize Map'),
    'tileset put {"firstgid":100,"source":"more.tsx"}': ('Add tileset more.tsx', 'Add Tileset · more.tsx'),
    'tileset put {"firstgid":100,"name":"art"}': ('Add tileset art', 'Add Tileset · art'),
}


def test_session_of_all_edits():
    """So is a session with any other line for all edits."""
    bench = Bench()
    with bench as page:
        for number, (line, (words, step)) in enumerate(OF_ALL_EDITS.items()):
            page.editor.lines(f'new made{number} 4 3 16 16 tiles.tsx', 'layer add object Things', 'object add 2 0 0 8 8 door', 'prop set object:1 a int 1')
            assert not copied(page).startswith('#'), line
            page.editor.lines(line)
            assert copied(page).splitlines()[0] == '# all edits, all maps', line
            assert page.texts('#steps li .name')[-1] == step, line
            assert [text for text in page.texts('#lines li .words') if text][-1] == words, line
        page.editor.lines('use town')
        things = layer_of(page, 'Things')['id']
        page.editor.lines('layer add group Yard', f'object put {things} {{"name":"two","ellipse":true}}', 'prop take map "people"')
        page.say('save end.tmj')
        folder = played(bench, copied(page).encode(), EXAMPLE_MAPS, '--all-edits')
        assert compact((folder / 'end.tmj').read_bytes()) == compact(bench.saved('end.tmj'))


def play(page, text):
    """Plays lines by the dialog."""
    page.find('#play').click()
    page.js('document.querySelector("#session textarea").value = arguments[0]', text)
    page.fill_in('Play')


def test_play():
    """Edits of the active document are played as one step, and at a refused line not at all; other
    lines one by one, up to the first that is refused."""
    with Bench() as page:
        ground = choose(page, 'Ground')
        before = page.editor.map()
        play(page, f'# a wall\nstamp {ground} 3 20 2 12,12\n\nstamp+ {ground} 5 20 1 12\r\n')
        assert standing(page) == (1, 1) and cells_with(page, 'Ground', 12) >= {(3, 20), (5, 20)}
        assert page.texts('#steps li .kind')[-1] == 'macro' and '2 lines' in page.bubble()
        page.ctrl('z')
        play(page, f'stamp {ground} 3 20 1 12\nstamp 99 0 0 1 1\nundo')
        assert page.editor.map() != before and 'That layer is not there any more' in page.bubble()
        page.ctrl('z')
        play(page, f'stamp {ground} 3 20 1 12\nstamp 99 0 0 1 1\nstamp {ground} 4 20 1 12')
        assert page.editor.map() == before and standing(page)[0] == 0
        assert 'Line 2 of 3' in page.bubble() and 'Nothing is changed' in page.bubble()
        play(page, 'new small 5 4 16 16 tiles.tsx\nstamp 1 0 0 1 5\nfrob\nnew never 5 4 16 16 tiles.tsx')
        names = [each['name'] for each in page.editor.state()['documents']]
        assert names == ['town', 'small'] and standing(page) == (1, 1)
        page.say('begin Open')
        play(page, 'stamp 1 1 0 1 5\nstamp 99 0 0 1 5')
        assert page.editor.state()['depth'] == 1 and cell(page, 1, 1, 0) == 5, 'no macro in a macro'


def test_loaded_anew():
    """In the middle of work the page is loaded anew: it shows the same documents, steps, selection,
    open macro and lines."""

    def seen(page):
        return [
            page.texts(css)
            for css in ('#steps li', '.tab', '#layers li', '#lines li', '#standing', '#macro')
        ]

    with Bench('town.tmj', 'layers.tmj') as page:
        page.click('.tab[data-document="town"]')
        ground = choose(page, 'Ground')
        take_tile(page, (3, 1))
        page.drag([(3, 20), (8, 20)])
        page.ctrl('s')
        page.keys('r')
        page.drag([(3, 3), (5, 5)])
        page.ctrl('z')
        page.click('#macro')
        page.keys('b')
        page.drag([(3, 21), (8, 21)])
        before, runs = seen(page), page.js('return roskevad.editor.map.runs')
        page.reload()
        assert seen(page) == before, (seen(page), before)
        assert (
            page.js('return roskevad.editor.map.runs') == runs and cell(page, ground, 4, 21) == 12
        )
        choose(page, 'Ground')
        page.drag([(3, 22), (5, 22)])
        page.click('#macro')
        assert (
            standing(page)[1] == page.editor.state()['count'] and page.editor.state()['depth'] == 0
        )


def test_two_windows():
    """Two windows have editors of their own: what one does, another does not see; and what one has is
    not offered to the other while it lives."""
    with Bench() as page:
        choose(page, 'Ground')
        take_tile(page, (3, 1))
        page.drag([(3, 20), (6, 20)])
        first = page.driver.current_window_handle
        page.driver.switch_to.new_window('tab')
        page.open()
        assert page.editor.state()['documents'] == [] and page.notices() == []
        page.say('new other 5 4 16 16 tiles.tsx')
        page.driver.close()
        page.driver.switch_to.window(first)
        page.settle()
        assert [each['name'] for each in page.editor.state()['documents']] == ['town']
        assert standing(page) == (1, 1)
        page.reload()
        assert standing(page) == (1, 1)
        [offered] = page.notices()
        assert 'other (0 steps)' in offered, offered


# Maps that only `--all-maps` opens, each with what the page shows of it.
ALL_MAPS = {
    'zlib.tmj': 'return roskevad.editor.map.layers[0].isTiles',
    'opacity_half.tmj': 'return roskevad.editor.map.layers[0].opacity === 0.5',
    'infinite.tmj': 'return roskevad.editor.map.layers[0].isTiles',
}


def test_all_maps():
    """Maps that `--all-maps` opens open here, with their fractions shown, and are saved so."""
    bench = Bench(empty=True)
    with bench as page:
        # A module without the calls that set aside opens what is packed alone.
        has_calls = page.js('return "set_aside" in roskevad.editor.module.calls')
        for name in ALL_MAPS if has_calls else ('zlib.tmj',):
            page.choose_files(bench.folder / name)
            assert page.editor.state()['active'] == name[:-4], page.bubble()
            assert page.js(ALL_MAPS[name]) is True, name
            before = json.loads((bench.folder / name).read_text())
            page.editor.lines('prop set map author string me')
            page.ctrl('s')
            after = json.loads(bench.saved(name))
            assert after.pop('properties') == [{'name': 'author', 'type': 'string', 'value': 'me'}]
            assert [each.get('opacity') for each in after['layers']] == [
                each.get('opacity') for each in before['layers']
            ]
            kept = before.keys() - {'layers', 'version'}
            assert {key: after[key] for key in kept} == {key: before[key] for key in kept}, name
            passed()
