# SPDX-License-Identifier: MIT OR Apache-2.0
"""What the steps that look at what `rt ci` has built need of the Rattle kit and of the crates."""
import importlib.machinery
import importlib.util
import shutil

from lib.cases import skip
from lib.places import TOP


def need_kit():
    """Leaves a test out where the Rattle kit is not there."""
    if not shutil.which('rt'):
        skip('the Rattle kit is not here: no `rt` on the path')


def need_built(*crates):
    """Leaves a test out where these crates are not built."""
    missing = [crate for crate in crates if not (TOP / 'crates' / crate / 'out').is_dir()]
    if missing:
        skip(f'no build of {", ".join(missing)}: `rt ci` makes it')


def tool(name):
    """A program of `tools/` as a module."""
    loader = importlib.machinery.SourceFileLoader(name, str(TOP / 'tools' / name))
    module = importlib.util.module_from_spec(importlib.util.spec_from_loader(name, loader))
    loader.exec_module(module)
    return module
