# SPDX-License-Identifier: MIT OR Apache-2.0
"""Writes the text of an LLVM module for x86-64 anew, for WebAssembly with 64-bit addresses.

It changes what frames the code: the layout of data, the target, the attributes that name a processor
or its stack, and the functions `roskevad_*`, which are exported. Layouts are the same in both: 64-bit
pointers, the same alignments, the least significant byte first. One intrinsic of x86 is written as
that of WebAssembly.

It stops at what it does not know, as another intrinsic, attribute, calling convention or outer
function, or inline assembly."""
import re

FROM = 'x86_64-unknown-linux-gnu'
TARGET = 'wasm64-unknown-unknown'
LAYOUT = 'e-m:e-p:64:64-p10:8:8-p20:8:8-i64:64-i128:128-n32:64-S128-ni:1:10:20'
EXPORTED = 'roskevad_'
# Attributes with a value: those of x86-64 alone are left out.
LEFT_OUT = ('target-cpu', 'target-features', 'tune-cpu', 'probe-stack', 'stack-probe-size')
# The functions of crates/roskevad_c/module_heap/heap.c.
HEAP = {'rattle_alloc', 'rattle_realloc', 'rattle_dealloc'}
# Intrinsics that each target has, by their names without types.
INTRINSICS = {
    'llvm.arithmetic.fence',
    'llvm.ctlz',
    'llvm.ctpop',
    'llvm.cttz',
    'llvm.memmove',
    'llvm.memcpy',
    'llvm.memset',
    'llvm.trap',
    'llvm.vector.reduce.or',
}
# SSSE3's choice of bytes takes the one that the lower four bits of an index name, and 0 where its
# highest bit is set; WebAssembly's takes 0 where the index is above 15.
CHOICE = 'llvm.x86.ssse3.pshuf.b.128'
CHOSEN = '''define internal <16 x i8> @"retarget::choice"(<16 x i8> %bytes, <16 x i8> %indices) alwaysinline nounwind {
  %places = and <16 x i8> %indices, splat (i8 -113)
  %chosen = call <16 x i8> @llvm.wasm.swizzle(<16 x i8> %bytes, <16 x i8> %places)
  ret <16 x i8> %chosen
}
declare <16 x i8> @llvm.wasm.swizzle(<16 x i8>, <16 x i8>)'''
# What has no meaning, or another one, on WebAssembly.
FOREIGN = re.compile(
    r'\b(?:asm|x86_\w+|ppc_\w+|addrspace|thread_local|ifunc|comdat|section|gc|personality|invoke'
    r'|indirectbr|callbr|va_arg)\b|= alias\b|\.\.\.\)'
)
# There is no C library here, so no loop may become a call of one of its functions.
NO_LIBRARY = '"no-builtin-bcmp" "no-builtin-memcmp" "no-builtin-strlen"'


class Unknown(Exception):
    """Something in a module that is not known here."""


def without_texts(text):
    """The text without constants and names in quotes, which may have any word in them."""
    return re.sub(r'"[^"]*"', '""', text)


def replaced_once(pattern, new, text):
    text, count = re.subn(pattern, new, text, flags=re.MULTILINE)
    if count != 1:
        raise Unknown(f'{count} lines of the form {pattern}')
    return text


def see_declared(text):
    """Refuses an outer function that is neither of the heap nor an intrinsic that is known."""
    for name in re.findall(r'^declare [^@\n]*@"?([^"(\s]+)"?\(', text, re.MULTILINE):
        intrinsic = next((each for each in INTRINSICS if f'{name}.'.startswith(f'{each}.')), None)
        if name not in HEAP and name != CHOICE and intrinsic is None:
            raise Unknown(f'the outer function {name}')


# Functions that are to be short rather than fast: what these crates do is done once for a file, for a refusal or for a member. Loops over
# cells are fast.
SMALL = re.compile(
    r'^(define [^@\n]*@"(?:fractions|map_faults|member_commands|tiled_files|tmx_maps|tmx_tree|tmx_writer|xml_text)::'
    r'(?!cells::|merged_cells::|same_map::)[^\n]*) \{$',
    re.MULTILINE,
)


def attributes(row):
    """A group of attributes without those of x86-64."""

    def kept(each):
        if each[1] not in LEFT_OUT:
            raise Unknown(f'the attribute {each[0].strip()}')
        return ''

    group = re.sub(r' "([^"]*)"(?:="[^"]*")?', kept, row[2])
    return f'{row[1]}{group}{"" if "memory(" in group else NO_LIBRARY + " "}}}'


def export(row):
    """The head of an outer function with the name that it is exported by."""
    if not row[2].startswith(EXPORTED):
        raise Unknown(f'a function that is given out: {row[2]}')
    return f'{row[1]} "wasm-export-name"="{row[2]}" {{'


def retargeted(text):
    """The text of the module for WebAssembly."""
    found = FOREIGN.search(without_texts(text))
    if found:
        raise Unknown(f'{found[0]} in the module')
    see_declared(text)
    text = replaced_once('^target datalayout = ".*"$', f'target datalayout = "{LAYOUT}"', text)
    text = replaced_once('^target triple = ".*"$', f'target triple = "{TARGET}"', text)
    text = re.sub(r'^(attributes #\d+ = \{)(.*)\}$', attributes, text, flags=re.MULTILINE)
    text = re.sub(r'^(define (?!internal )[^@\n]*@"?([^"(\s]+)"?\(.*) \{$', export, text, flags=re.MULTILINE)
    text = SMALL.sub(r'\1 minsize optsize {', text)
    declared = re.escape(f'@{CHOICE}(')
    text = re.sub(rf'^declare [^\n]*{declared}.*$', lambda _: CHOSEN, text, flags=re.MULTILINE)
    return text.replace(f'@{CHOICE}(', '@"retarget::choice"(')
