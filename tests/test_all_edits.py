# SPDX-License-Identifier: MIT OR Apache-2.0
"""Runs the program with `--all-edits` and without it: which lines it reads, which forms standard error
says of a strict run's last line, and how the option stands beside others. What the lines for all edits
do, the sessions of `sessions/members` and `sessions/all_edits` say."""
import json

from lib.asides import OPTION as ALL_MAPS
from lib.cases import CORES, Case, check_each, unlike
from lib.forms import FURTHER, OF_MEMBERS
from lib.maps import group, map_of, text_of, thing, things
from lib.refusals import refusal
from lib.sessions import ALL_EDITS, Run, fault_of_replies, fault_of_run, heard, joined

START = [
    ('new town 4 3 16 16 town.tsj', 'ok 0/0 clean 0'),
    ('layer add object Things', 'ok 1/1 dirty 0'),
    ('object add 2 16 16 8 8 door', 'ok 2/2 dirty 0'),
]
# Lines that no editor of the plain lines reads, and the refusals of that.
NOT_READ = [
    ('member set object:1 name "x"', 3),
    ('member set+ object:1 name "x"', 3),
    ('member put object:1 {}', 3),
    ('member remove object:1 name', 3),
    ('member', 3),
    ('layer add image x', 4),
    ('object put 2 {}', 4),
    ('object into 1 2 0', 4),
    ('layer add group x', 4),
    ('layer into 1 0 0', 4),
    ('prop put map {}', 4),
    ('prop take map "x"', 4),
    ('tileset put {}', 4),
    ('layer put 0 0 {}', 4),
    ('tileset number 1 2', 4),
    ('extend 0 0 0 1', 3),
]


def run_of(name, rows, *options):
    """A run of the program over an empty folder, behind the lines of the start."""
    run = Run(name)
    run.options = [*options]
    run.say_all([*START, *rows])
    return run


def test_lines_without_the_option():
    """They are refused as lines of no command, or as spelled wrong."""
    rows = [(line, refusal(code)) for line, code in NOT_READ]
    fault = fault_of_run(run_of('without the option', rows))
    assert not fault, fault


def test_a_limit():
    """A step of a line for all edits is one of those that a document keeps."""
    rows = [
        ('member set object:1 rotation 45', 'ok 2/2 dirty 0'),
        ('member remove object:1 rotation', 'ok 2/2 dirty 0'),
        ('layer add group Houses', 'ok 2/2 dirty 0'),
        ('object put 2 {"point":true}', 'ok 2/2 dirty 0'),
        ('tileset put {"firstgid":100}', 'ok 2/2 dirty 0'),
        ('object into 1 2 1', 'ok 2/2 dirty 0'),
        ('layer into 1 3 0', 'ok 2/2 dirty 0'),
        ('layer put 3 0 {"type":"tilelayer","id":7}', 'ok 2/2 dirty 0'),
        ('prop put map {"name":"two words","value":1}', 'ok 2/2 dirty 0'),
        ('extend 1 0 0 0', 'ok 2/2 dirty 0'),
        ('goto 0', 'ok 0/2 dirty 0'),
    ]
    fault = fault_of_run(run_of('with a limit', rows, ALL_EDITS, '--limit', '2'))
    assert not fault, fault


def test_all_maps():
    """A map with fractions is opened, and has them back when it is saved, wherever an object or a layer was
    moved to; and so have what lines say."""
    rows = things(1, thing(1, x=1.5, y=2), thing(2, x=0.25, y=3)), things(2), group(3)
    text = text_of(map_of(*rows, width=1, height=1, nextlayerid=4, nextobjectid=3))
    rows = [
        ('open a a.tmj', 'ok 0/0 clean 0'),
        ('member set object:1 rotation 90.5', 'ok 1/1 dirty 0'),
        ('object put 1 {"x":7.25,"y":8}', 'ok 2/2 dirty 0'),
        ('object into 2 2 0', 'ok 3/3 dirty 0'),
        ('layer into 2 3 0', 'ok 4/4 dirty 0'),
        ('layer into 1 3 1', 'ok 5/5 dirty 0'),
        ('prop put layer:1 {"name":"speed","type":"float","value":0.5}', 'ok 6/6 dirty 0'),
        ('tileset put {"firstgid":100,"tileoffset":{"x":0.5,"y":0}}', 'ok 7/7 dirty 0'),
        ('save a.tmj', None),
    ]
    session = joined(line.encode() for line, _ in rows)
    done, files = heard(session, {'a.tmj': text}, [ALL_EDITS, ALL_MAPS])
    replies = done.stdout.split(b'\n')[:-1]
    wanted = [reply.encode() for _, reply in rows[:-1]]
    fault = fault_of_replies(session, joined(wanted), joined(replies[:-1]))
    assert not fault, fault
    assert len(replies) == len(rows) and replies[-1].startswith(b'saved a.tmj '), replies
    tree = json.loads(files['a.tmj'])
    moved, row = tree['layers'][0]['layers']
    saved, put = row['objects']
    fault = unlike((1.5, 2, 90.5, 3, 7.25, 8), (saved['x'], saved['y'], saved['rotation'], put['id'], put['x'], put['y']))
    fault = fault or unlike((0.5, 0.5), (row['properties'][0]['value'], tree['tilesets'][-1]['tileoffset']['x']))
    fault = fault or unlike([(2, 0.25, 3)], [(item['id'], item['x'], item['y']) for item in moved['objects']])
    assert not fault, fault


# ---- strict runs


OWNERS = 'map, or layer: or object: or tileset: and an id'
NUMBER = 'a whole number from 0 to 4294967295, with no zero in front'
EXTEND = ['extend LEFT TOP RIGHT BOTTOM']
LAYERS = ['layer add tile NAME', 'layer add object NAME', 'layer add group NAME', 'layer add image NAME']


def forms_behind(told, forms):
    return '\n'.join([told, *(f'  {form}' for form in forms)])


def forms_of(front):
    return [form for form in FURTHER if form.startswith(front)]


def strict_cases():
    """The last line of a strict run, and what standard error says of it behind its number."""
    bad, unknown = refusal(4), refusal(3)
    lines = {
        'member set object:1 rotation': forms_behind(f'{bad}: word 5 is missing: a JSON text', forms_of('member set ')),
        'member set object:1 rotation ': forms_behind(f'{bad}: word 5 is not a JSON text', forms_of('member set ')),
        'member set nothing a 1': forms_behind(f'{bad}: word 3 is not {OWNERS}', forms_of('member set ')),
        'member remove object:1 name x': forms_behind(f'{bad}: word 5 is one too many', forms_of('member remove ')),
        'member': forms_behind(f'{bad}: word 2 is missing: a word that a form has there', OF_MEMBERS),
        'member undo': forms_behind(f'{bad}: word 2 is not a word that a form has there', OF_MEMBERS),
        'members': forms_behind(f'{unknown}: word 1 is not a command', OF_MEMBERS),
        'object put door {}': forms_behind(f'{bad}: word 3 is not {NUMBER}', ['object put LAYER JSON']),
        'tileset put': forms_behind(f'{bad}: word 3 is missing: a JSON text', ['tileset put JSON']),
        'object into 1 2': forms_behind(f'{bad}: word 5 is missing: {NUMBER}', ['object into OBJECT LAYER PLACE']),
        'layer into 1 none 0': forms_behind(f'{bad}: word 4 is not {NUMBER}', ['layer into LAYER GROUP PLACE']),
        'layer put 0 {}': forms_behind(f'{bad}: word 4 is not {NUMBER}', ['layer put GROUP PLACE JSON']),
        'layer put 0 0': forms_behind(f'{bad}: word 5 is missing: a JSON text', ['layer put GROUP PLACE JSON']),
        'extend 1 2 0 1 1': forms_behind(f'{bad}: word 6 is one too many', EXTEND),
        'extend+ 1 2 0 1': forms_behind(f'{unknown}: word 1 is not a command', EXTEND),
        'prop put tileset:1 {}': forms_behind(f'{bad}: word 3 is not map, or layer: or object: and an id', ['prop put OWNER JSON']),
        'layer add groups x': forms_behind(f'{bad}: word 3 is not tile, object, group or image', LAYERS),
        'object put 2 {}}': refusal(60),
        'prop take map {}': refusal(63),
        'tileset put {}': refusal(62),
        'prop put map {}': refusal(62),
        'object into 1 2 1': refusal(39),
        'layer into 1 2 0': refusal(31),
        'layer put 0 0 {}': refusal(62),
        'extend 4096 0 0 0': refusal(39),
        'member+ set object:1 a 1': forms_behind(f'{unknown}: word 1 is not a command', OF_MEMBERS),
        'frob': f'{unknown}: word 1 is not a command\n  fill LAYER X Y TILE',
        'undo x': f'{bad}: word 2 is one too many\n  undo',
        'member set object:1 id 7': refusal(41),
        'member set object:1 rotation 0.5': refusal(61),
        'member remove object:1 point': refusal(42),
    }
    return [Case(line, line, f'{line}: {told}') for line, told in lines.items()]


def fault_of_strict(case):
    lines = [line.encode() for line, _ in START]
    done, _ = heard(joined([*lines, case.given.encode(), b'status']), options=[ALL_EDITS, '--strict'])
    wanted = f'tile_editor: line {len(lines) + 1}: {case.wanted}\n'
    return unlike((3, len(lines) + 1, wanted), (done.returncode, done.stdout.count(b'\n'), done.stderr.decode()))


def test_strict_runs():
    check_each(strict_cases(), fault_of_strict, CORES)


def test_a_strict_run_to_its_end():
    """It ends well where the map is saved, and names a document with unsaved changes."""
    line = 'member set object:1 rotation 45'
    for last, status, told in (('clean', 0, ''), ('status', 3, 'tile_editor: end of input: town: unsaved changes\n')):
        lines = [*(each for each, _ in START), line, last]
        done, _ = heard(joined(each.encode() for each in lines), options=[ALL_EDITS, '--strict'])
        fault = unlike((status, told), (done.returncode, done.stderr.decode()))
        assert not fault, fault
