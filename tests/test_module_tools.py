# SPDX-License-Identifier: MIT OR Apache-2.0
"""Sees that the scripts which make the module stop at what they do not know: `tools/wasm/retarget.py`
at parts of an LLVM module, and `tools/wasm/lower.py` at parts of a module of WebAssembly."""
import sys

from lib.cases import Case, check_each, unlike
from lib.places import TOP

sys.path.insert(0, str(TOP / 'tools'))
from wasm import lower, retarget  # noqa: E402

FRAME = 'target datalayout = "e"\ntarget triple = "x86_64-unknown-linux-gnu"\n'
CALL = 'define i64 @roskevad_open(ptr %slot, i64 %limit) #0 {\n  ret i64 0\n}\n'
KNOWN = [
    CALL,
    'define internal void @"has::asm in its name"() #0 {\n  ret void\n}\n',
    'declare { i64, i64 } @rattle_alloc(i64, i64) #0\n',
    'declare i64 @llvm.ctlz.i64(i64, i1 immarg) #0\n',
    '@text = private constant [3 x i8] c"asm"\n',
    'attributes #0 = { nounwind "target-cpu"="x86-64-v2" "probe-stack"="inline-asm" }\n',
]
FOREIGN = [
    'declare <16 x i8> @llvm.x86.sse2.psubus.b(<16 x i8>, <16 x i8>)\n',
    'declare i64 @llvm.ctlzz.i64(i64)\n',
    'declare i32 @memcmp(ptr, ptr, i64)\n',
    'declare i32 @printf(ptr, ...)\n',
    'define internal void @f() #0 {\n  call void asm sideeffect "nop", ""()\n  ret void\n}\n',
    'define void @other() #0 {\n  ret void\n}\n',
    'define internal x86_fastcallcc void @f() {\n  ret void\n}\n',
    '@place = thread_local global i64 0\n',
    '@other = alias i64, ptr @place\n',
    'attributes #1 = { nounwind "patchable-function"="prologue" }\n',
    'target triple = "x86_64-unknown-linux-gnu"\n',
]

# A module of WebAssembly with 64-bit addresses and one exported function, section by section.
TYPES = (1, bytes([1, 0x60, 1, lower.I64, 1, lower.I64]))
FUNCTIONS = (3, bytes([1, 0]))
MEMORIES = (5, bytes([1, 4, 17]))
GLOBALS = (6, bytes([1, lower.I64, 1, 0x42, 0, 0x0B]))
EXPORTS = (7, bytes([2]) + lower.sized(b'f') + bytes([0, 0]) + lower.sized(b'memory') + bytes([2, 0]))
LOAD = [0x20, 0, 0x29, 3, 0]


def body(*code):
    return 10, lower.listed([lower.sized(bytes([0, *code, 0x0B]))])


def module_of(*sections):
    """The bytes of a module with these sections in the place of those of the same number."""
    found = dict([TYPES, FUNCTIONS, MEMORIES, GLOBALS, EXPORTS, body(*LOAD)])
    found.update(sections)
    rows = (bytes([number]) + lower.sized(found[number]) for number in sorted(found))
    return b'\0asm\1\0\0\0' + b''.join(rows)


UNKNOWN = [
    Case('an import', (2, bytes([1]) + lower.sized(b'a') + lower.sized(b'b') + bytes([0, 0])), None),
    Case('a memory with 32-bit addresses', (5, bytes([1, 0, 17])), None),
    Case('a shared memory', (5, bytes([1, 7, 17, 18])), None),
    Case('a second memory', body(0x20, 0, 0x29, 0x43, 1, 0), None),
    Case('an offset above 4 GiB', body(0x20, 0, 0x29, 3, *lower.unsigned(1 << 32)), None),
    Case('an atomic access', body(0x20, 0, 0xFE, 0x11, 3, 0), None),
    Case('a call at the end', body(0x20, 0, 0x12, 0), None),
    Case('a part of a memory that is made', body(0xFC, 8, 0, 0), None),
    Case('a relaxed vector', body(0xFD, *lower.unsigned(256)), None),
    Case('a reference', body(0xD0, 0x70), None),
    Case('a global that is computed', (6, bytes([1, lower.I64, 0, 0x23, 0, 0x0B])), None),
    Case('a function that starts', (8, bytes([0])), None),
    Case('an exported table', (7, bytes([1]) + lower.sized(b'table') + bytes([1, 0])), None),
    Case('an export of a vector', (1, bytes([1, 0x60, 1, lower.V128, 1, lower.I64])), None),
    Case('a segment that is passive', (11, bytes([1, 1, 4, 65, 66, 67, 68])), None),
]


def fault_of_text(case):
    try:
        retarget.retargeted(FRAME + CALL + case.given)
    except retarget.Unknown:
        return None
    return 'it was not refused'


def fault_of_module(case):
    try:
        lower.lowered(module_of(case.given), '0.0.0')
    except lower.Unknown:
        return None
    return 'it was not refused'


def test_texts_that_are_not_known():
    check_each([Case(text.split('\n')[0], text, None) for text in FOREIGN], fault_of_text)


def test_a_text_that_is_known():
    text = retarget.retargeted(FRAME + ''.join(KNOWN))
    for part in ('"wasm-export-name"="roskevad_open"', retarget.TARGET, retarget.LAYOUT):
        assert part in text, part
    assert 'target-cpu' not in text and 'probe-stack' not in text


def test_modules_that_are_not_known():
    check_each(UNKNOWN, fault_of_module)


def test_a_module_that_is_known():
    """It has a new function, which has its address in 32 bits."""
    lowering = lower.Lowering(lower.lowered(module_of(), '0.0.0'))
    assert lowering.exports == {'f': 1}
    assert lowering.types[lowering.functions[1]] == (bytes([lower.I32]), bytes([lower.I32]))
    wrapped = bytes([0, 0x20, 0, 0xA7, 0x29, 3, 0, 0x0B])
    assert lower.sized(wrapped) in lowering.sections[lower.Lowering.CODE]


def test_numbers():
    numbers = [0, 1, 63, 64, 127, 128, 2**31, 2**32 - 1, 2**63 - 1, -1, -64, -65, -(2**63)]
    check_each(
        [Case(str(number), number, None) for number in numbers],
        lambda case: unlike(case.given, lower.Reader(lower.signed(case.given)).signed()),
    )
    for number in numbers[:9]:
        assert lower.Reader(lower.unsigned(number)).unsigned() == number


def test_the_module_ends_with_its_version():
    version = (TOP / 'VERSION').read_text().strip()
    mark = b'\x00' + lower.sized(lower.sized(lower.MARK) + version.encode())
    assert (TOP / 'js' / 'roskevad.wasm').read_bytes().endswith(mark)
