# SPDX-License-Identifier: MIT OR Apache-2.0
"""Finds the programs of Debian's packages that steps need, and installs those packages where they are
missing and this is root."""
import importlib.util
import os
import shutil
import subprocess
import sys

SELENIUM = 'python3-selenium'
ZSTANDARD = 'python3-zstandard'
# The modules of packages that this interpreter need not have: Debian's own may run a step.
OF_DEBIAN = {SELENIUM: 'selenium', ZSTANDARD: 'zstandard'}
# The command that each package brings.
COMMANDS = {
    'binaryen': 'wasm-opt',
    'chromium': 'chromium',
    'chromium-driver': 'chromedriver',
    'esbuild': 'esbuild',
    'firefox-esr': 'firefox-esr',
    'lowdown': 'lowdown',
    'mypy': 'mypy',
    'node-typescript': 'tsc',
    'nodejs': 'node',
    'pyflakes3': 'pyflakes3',
    'shellcheck': 'shellcheck',
    'tiled': 'tiled',
    'valgrind': 'valgrind',
}
# The module that this interpreter has with each package.
MODULES = {'python3-venv': 'ensurepip'}
# What the steps in Chromium need.
BROWSER = ('chromium', 'chromium-driver', SELENIUM)


def pythons(modules):
    """The interpreters here that have these modules: this one, or Debian's own."""
    for path in (sys.executable, '/usr/bin/python3'):
        words = [path, '-c', f'import {", ".join(modules)}']
        if os.path.exists(path) and subprocess.run(words, stderr=subprocess.DEVNULL).returncode == 0:
            yield path


def python(packages):
    """An interpreter for a step that needs these packages: one with their modules, where there is
    one."""
    modules = [OF_DEBIAN[package] for package in packages if package in OF_DEBIAN]
    return next(pythons(modules), sys.executable) if modules else sys.executable


def is_there(package):
    if package in OF_DEBIAN:
        return any(pythons([OF_DEBIAN[package]]))
    if package in MODULES:
        return importlib.util.find_spec(MODULES[package]) is not None
    return bool(shutil.which(COMMANDS[package]))


def missing(packages):
    return [package for package in packages if not is_there(package)]


def install(packages):
    """Installs those that are missing, where it can. What is still missing then fails the steps that
    need it."""
    wanted = missing(sorted(set(packages)))
    if not wanted or os.getuid() != 0 or not shutil.which('apt-get'):
        return
    print('installing', *wanted, flush=True)
    env = {**os.environ, 'DEBIAN_FRONTEND': 'noninteractive'}
    waits = ['-o', 'DPkg::Lock::Timeout=300', '-o', 'Acquire::Retries=3']
    for words in (['update'], ['install', '-y', '--no-install-recommends', *wanted]):
        subprocess.run(['apt-get', '-q', *waits, *words], env=env, stdout=subprocess.DEVNULL)
