# SPDX-License-Identifier: MIT OR Apache-2.0
"""Compares the fields of a stack, its steps, a paint and a region with a list, by their names and
types. No contract tells whether a copy of a document stands in one of them. So whoever adds a field
adds it here too, and asks what it holds: of all that a stack keeps, one field is a document, and
its commands hold what they changed."""
import re

from lib.cases import Case, check_each, unlike
from lib.places import TOP

# What a file declares, by crate and file: the fields of a struct, the variants of an enum.
STACK = {
    ('undo_stack', 'stack.rt'): {
        'Stack<C>': ['document: Document', 'sequences: Sequences<C>', 'alloc: Global'],
    },
    ('undo_stack', 'stack/sequences.rt'): {
        'Sequences<C>': ['steps: Sequence<C>', 'levels: Vec<Level<C>>'],
    },
    ('undo_stack', 'sequence.rt'): {
        'Sequence<C>': [
            'entries: VecDeque<Entry<C>>',
            'index: usize',
            'clean: Option<usize>',
            'limit: usize',
            'has_free: bool',
        ],
    },
    ('undo_stack', 'entry.rt'): {
        'Entry<C>': ['Command(C)', 'Macro(Box<MacroContents<Entry<C>>>)'],
        'MacroContents<E>': ['text: MapText', 'action: MapText', 'children: Vec<E>'],
    },
    ('undo_stack', 'level.rt'): {
        'Level<C>': ['contents: Box<MacroContents<Entry<C>>>', 'sequence: Sequence<C>'],
    },
}
PAINT = {
    ('paint_commands', 'paint.rt'): {
        'PaintKind': ['Stamp', 'Erase', 'Fill'],
        'PaintCommand': [
            'kind: PaintKind',
            'follows: bool',
            'is_made: bool',
            'layer: u32',
            'cells: CellEdits',
        ],
    },
    ('edits', 'change.rt'): {
        'CellList': ['One(CellEdit)', 'Many(Vec<CellEdit>)'],
        'KeptCells': ['One(CellEdit)', 'Many(Vec<CellEdit>)', 'Alike(Vec<CellEdit>)'],
        'CellEdits': ['cells: KeptCells'],
        'CellChange': ['layer: u32', 'cells: CellEdits'],
    },
    ('map_model', 'edit.rt'): {
        'CellEdit': ['x: u16', 'y: u16', 'before: Gid', 'after: Gid'],
    },
}
REGION = {
    ('region', 'cells.rt'): {'Region': ['runs: Vec<StoredRun>']},
    ('region', 'stored.rt'): {'StoredRun': ['y: u16', 'x: u16', 'len: u16']},
}
# What else stands in these fields, and holds no document: a text, an allocator, a tile, numbers,
# lists and boxes. `C` is a stack's command, and `E` an entry of a macro.
PLAIN = {'Box', 'C', 'E', 'Gid', 'Global', 'MapText', 'Option', 'Vec', 'VecDeque'}
PLAIN |= {'bool', 'u16', 'u32', 'usize'}

COMMENT = re.compile(r'//[^\n]*')
DECLARED = re.compile(r'\b(?:struct|enum) (\w+(?:<[^>{]*>)?) *([{(;])')


def parts_of(text):
    """The parts of a text between the commas that stand in no brackets, up to the bracket that
    closes it."""
    parts, depth = [''], 0
    for sign in text:
        depth += (sign in '<({[') - (sign in '>)}]')
        if depth < 0:
            break
        if sign == ',' and depth == 0:
            parts.append('')
        else:
            parts[-1] += sign
    return [' '.join(part.split()) for part in parts if part.strip()]


def declared_in(source):
    """The structs and enums of a source, with their fields or variants."""
    text = COMMENT.sub('', source)
    return {
        each[1]: [
            re.sub(r'^(?:#\[[^\]]*\] *)*(?:pub(?:\([a-z]+\))? )?', '', part)
            for part in (parts_of(text[each.end() :]) if each[2] != ';' else [])
        ]
        for each in DECLARED.finditer(text)
    }


def cases_of(files):
    return [
        Case(f'crates/{crate}/src/{file}', TOP / 'crates' / crate / 'src' / file, wanted)
        for (crate, file), wanted in files.items()
    ]


def fault_of(case):
    declared = declared_in(case.given.read_text())
    return unlike(case.wanted, {name: declared.get(name) for name in case.wanted})


def test_what_is_declared():
    """The fields of each form of a struct or an enum are found."""
    source = """
        /// A struct, with a comment, and no field.
        pub struct None_;
        pub(crate) struct Pair<A>(pub A, Vec<(u8, A)>);
        #[derive(Drop)]
        pub enum Kind<'a> {
            #[error("no, none")]
            First, // and second
            Second { at: u32, of: [u8; 4] },
        }
        struct Whole<C, D> { pub first: C, pub(crate) second: VecDeque<Pair<D>> }
    """
    wanted = {
        'None_': [],
        'Pair<A>': ['A', 'Vec<(u8, A)>'],
        "Kind<'a>": ['First', 'Second { at: u32, of: [u8; 4] }'],
        'Whole<C, D>': ['first: C', 'second: VecDeque<Pair<D>>'],
    }
    fault = unlike(wanted, declared_in(source))
    assert not fault, fault


def test_fields_of_a_stack():
    check_each(cases_of(STACK), fault_of)


def test_fields_of_a_paint():
    check_each(cases_of(PAINT), fault_of)


def test_fields_of_a_region():
    check_each(cases_of(REGION), fault_of)


def types_in(files):
    """The names of types in the fields and variants of some files."""
    for declared in files.values():
        for fields in declared.values():
            for field in fields:
                yield from re.findall(r'\w+', field.partition(':')[2] or field.partition('(')[2])


def test_one_document():
    """A stack holds one document, and a paint and a region none. Each other type in their fields
    is looked at here, or is plain."""
    stack, others = list(types_in(STACK)), [*types_in(PAINT), *types_in(REGION)]
    assert stack.count('Document') == 1 and 'Document' not in others
    looked_at = {
        name.partition('<')[0]
        for files in (STACK, PAINT, REGION)
        for declared in files.values()
        for name in declared
    }
    unknown = {*stack, *others} - looked_at - PLAIN - {'Document'}
    assert not unknown, f'not looked at: {unknown}'
