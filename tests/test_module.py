# SPDX-License-Identifier: MIT OR Apache-2.0
"""Tries the package for JavaScript and the module in `js/` in Node: each call at its edges; editors
that share a module, and modules beside each other and in workers; memory that ends and stacks that
are full; modules that are cut short or of another version. The checks are in
tests/module/checks.mjs; test_module_browsers.py has them in browsers.

The deepest cases may take a quarter of the module's stack. They must also pass where the engine's own
stack is a quarter of what Node gives it."""
from lib.cases import Case, check_each
from module.node import checked
from module.server import Server

PACKAGES = ('nodejs',)
# A quarter of the 984 KiB that Node gives to its stack.
SMALL_STACK = '--stack-size=246'


def check_in_node(*options):
    with Server() as server:
        came = checked(server.address, *options)
    check_each([Case(name, fault, None) for name, fault in came], lambda case: case.given)


def test_calls():
    check_in_node()


def test_calls_with_a_small_stack_of_the_engine():
    check_in_node(SMALL_STACK)
