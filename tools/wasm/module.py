# SPDX-License-Identifier: MIT OR Apache-2.0
"""Makes the WebAssembly module of the LLVM module that the kit compiled for x86-64.

1. The kit hands its LLVM module to the `clang` of a toolchain folder. That folder is one of ours here,
   whose clang keeps the module and then does what the kit's does.
2. retarget.py writes the text of the module anew, for WebAssembly.
3. The kit's clang compiles it, and crates/roskevad_c/module_heap/heap.c, which stands for the kit's
   heap over malloc; `rattle-link` links both. It imports nothing.
4. lower.py gives it 32-bit addresses, as all browsers and Node take.
5. Debian's `wasm-opt` (of the package binaryen) takes out what the linker left: locals, blocks and
   moves that nothing needs. The module is a seventh smaller by it, and as quick.

The kit's own target for WebAssembly refuses every crate with a heap. No step depends on where it is
done or when, so the same crates give the same bytes."""
import os
import subprocess
import sys
from pathlib import Path

from . import lower, retarget

HEAP = Path(__file__).resolve().parents[2] / 'crates/roskevad_c/module_heap/heap.c'
TARGET = retarget.TARGET
# What is written for a function, and what the kit's compiler says to clang for this target. Vectors
# are needed: the module has some, which would become many single instructions.
WORDS = (
    f'--target={TARGET}',
    '-mcpu=lime1',
    '-msimd128',
    '-ffunction-sections',
    '-fdata-sections',
    '--no-default-config',
    '-no-canonical-prefixes',
    '-fno-crash-diagnostics',
    '-Werror',
)
COMPILER = ('-mllvm', '-expand-div-rem-bits=64', '-mllvm', '-expand-fp-convert-bits=64')
# Engines do a copy or a fill of a few bytes by a call of their own, which takes longer than to load and
# store: so up to so many loads and stores stand in its place.
MOST_STORES = 16
INLINE = [
    word
    for call in ('memcpy', 'memmove', 'memset')
    for word in ('-mllvm', f'-max-store-{call}={MOST_STORES}')
]
TRAPS = ('-mllvm', '-trap-unreachable')
# Functions with the same code are one.
MERGED = ('-Xclang', '-fmerge-functions')
# At least four times what the deepest lines and maps need: tests/module/deep_cases.mjs measures it.
STACK = 1_048_576
# What the module uses beyond the first WebAssembly, and how much is done.
SHRINK = (
    '--enable-bulk-memory',
    '--enable-mutable-globals',
    '--enable-nontrapping-float-to-int',
    '--enable-sign-ext',
    '--enable-simd',
    '-O1',
)
# A clang that keeps the module that it is given, which must be one alone, and then is the kit's. It
# is called without an environment.
KEEPER = """#!/bin/sh
if [ -f module.bc ]; then
    [ ! -e '{kept}' ] || exit 1
    cp module.bc '{kept}' || exit 1
fi
exec '{clang}' "$@"
"""


def keeping_toolchain(toolchain, folder, kept):
    """A toolchain folder like the kit's, whose clang keeps the LLVM module in a file."""
    (folder / 'bin').mkdir(parents=True)
    for path in [toolchain / 'lib', *(toolchain / 'bin').iterdir()]:
        os.symlink(path, folder / path.relative_to(toolchain))
    clang = folder / 'bin' / 'clang'
    clang.unlink()
    clang.write_text(KEEPER.format(kept=kept, clang=toolchain / 'bin' / 'clang'))
    clang.chmod(0o755)
    return folder


def run(*words, folder):
    words = [str(word) for word in words]
    done = subprocess.run(words, cwd=folder, capture_output=True, text=True)
    if done.returncode != 0:
        sys.exit(f'{words[0]}: status {done.returncode}: {done.stderr[-3000:]}')


def compile_module(clang, bitcode, folder):
    """The object file of the retargeted LLVM module."""
    plain = ['--no-default-config', '-x', 'ir', bitcode, '-S', '-emit-llvm']
    plain += ['-Xclang', '-disable-llvm-passes', '-o', 'given.ll']
    run(clang, f'--target={retarget.FROM}', *plain, folder=folder)
    text = retarget.retargeted((folder / 'given.ll').read_text())
    (folder / 'module.ll').write_text(text)
    words = [*WORDS, *MERGED, *COMPILER, *INLINE, *TRAPS, '-O3', '-c', '-x', 'ir']
    run(clang, *words, 'module.ll', '-o', 'module.o', folder=folder)


def compile_heap(clang, folder):
    words = [*WORDS, '-Wall', '-Wextra', '-O2', '-ffreestanding', '-nostdinc', '-c', '-x', 'c']
    run(clang, *words, HEAP, '-o', 'heap.o', folder=folder)


def build(kit, bitcode, folder, version):
    """Writes roskevad.wasm into a folder, of this LLVM module."""
    tools = kit / 'toolchain'
    clang = tools / 'bin' / 'clang'
    compile_module(clang, bitcode, folder)
    compile_heap(clang, folder)
    # The linker takes one file.
    run(tools / 'bin' / 'llvm-ar', 'rcsD', 'wasm.a', 'module.o', 'heap.o', folder=folder)
    words = ['--target', TARGET, '--toolchain', tools, '--stack', STACK, '-o', 'wide.wasm', 'wasm.a']
    run(kit / 'bin' / 'rattle-link', *words, folder=folder)
    wide = (folder / 'wide.wasm').read_bytes()
    (folder / 'lowered.wasm').write_bytes(lower.lowered(wide, version))
    run('wasm-opt', *SHRINK, 'lowered.wasm', '-o', 'roskevad.wasm', folder=folder)
