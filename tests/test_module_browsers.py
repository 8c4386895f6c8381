# SPDX-License-Identifier: MIT OR Apache-2.0
"""Runs the session files of `sessions/` on the module in Chromium, in Firefox and, where Debian's
webkit2gtk-driver and xvfb are there, in WebKitGTK, which has the engine of Safari; and the checks of
the package that test_module.py has in Node."""
from lib.cases import Case, check_each
from lib.sessions import all_runs
from module.browsers import chromium, firefox, has_webkit, told, webkit
from module.server import Server

IS_LONG = True
PACKAGES = ('chromium', 'firefox-esr')


def check_calls(browser):
    with Server() as server:
        came = told(browser, server, '/tests/module/checks.mjs', 'checked', server.address)
    check_each([Case(name, fault, None) for name, fault in came], lambda case: case.given)


def check_sessions(browser):
    runs = all_runs()
    with Server(runs) as server:
        told(browser, server, '/tests/module/run_sessions.mjs', 'runAll', server.address, 'step')
        cases = [Case(run.name, number, None) for number, run in enumerate(runs)]
        check_each(cases, lambda case: server.fault_of(case.given))


def test_calls_in_chromium():
    check_calls(chromium)


def test_sessions_in_chromium():
    check_sessions(chromium)


def test_calls_in_firefox():
    check_calls(firefox)


def test_sessions_in_firefox():
    check_sessions(firefox)


def test_webkit():
    """It alone may be left out, aloud: few machines have it."""
    if not has_webkit():
        print('LEFT OUT: WebKitGTK. It needs webkit2gtk-driver and xvfb, of Debian')
        return
    check_calls(webkit)
    check_sessions(webkit)
