#!/usr/bin/env python3
# SPDX-License-Identifier: MIT OR Apache-2.0
"""Makes the pictures of the page to draw on anew, from what tools/build_page has built. It needs what the tests of the page need, and
ImageMagick:

    apt-get install chromium chromium-driver python3-selenium imagemagick
    docs/pictures/make_page.py
"""
import base64
import subprocess
import sys
from pathlib import Path

HERE = Path(__file__).resolve().parent
sys.path.insert(0, str(HERE.parent.parent / 'tests'))

from page.bench import Bench, choose  # noqa: E402
from page.browser import browser  # noqa: E402

WIDTH, HEIGHT = 1180, 760
# Tiles of the town, by their columns and rows in the palette.
PATH, ROOF, WALL, DOOR = (3, 0), (1, 3), (1, 1), (3, 1)
SCREEN = {'width': WIDTH, 'height': HEIGHT, 'deviceScaleFactor': 1, 'mobile': False}
LOOKS = [{'name': 'prefers-color-scheme', 'value': 'light'}, {'name': 'prefers-reduced-motion', 'value': 'reduce'}]


def picture(page, name, first=None, last=None, margin=0):
    """Keeps what is seen from one element to another one, or all of it, in few colours."""
    page.js('return new Promise(done => setTimeout(done, 300))')
    clip = {'x': 0, 'y': 0, 'width': WIDTH, 'height': HEIGHT, 'scale': 1}
    if first:
        code = '''const [one, other] = arguments.length === 2 ? [...arguments].map(css => document.querySelector(css).getBoundingClientRect()) : [];
                  return [one.left, one.top, Math.max(one.right, other.right), Math.max(one.bottom, other.bottom)]'''
        left, top, right, bottom = page.js(code, first, last or first)
        clip |= {'x': left - margin, 'y': top - margin, 'width': right - left + 2 * margin, 'height': bottom - top + 2 * margin}
    data = base64.b64decode(page.driver.execute_cdp_cmd('Page.captureScreenshot', {'clip': clip})['data'])
    out = HERE / f'{name}.png'
    words = ['convert', '-', '-strip', '-dither', 'None', '-colors', '96', '-define', 'png:exclude-chunks=date,time',
             '-define', 'png:compression-level=9', f'PNG8:{out}']
    subprocess.run(words, input=data, check=True)
    print(f'{out.name}: {out.stat().st_size} bytes')


def take_tile(page, place):
    """Clicks at a tile of the palette, whatever its scale."""
    code = '''const {left, top} = document.getElementById("palette").getBoundingClientRect();
              return arguments[0].map((at, axis) => Math.floor([left, top][axis] + (at + 0.5) * roskevad.palette.side))'''
    page.drag_points([page.js(code, place)])


def fit(page, has_log=False):
    """Unfolds the log or folds it, and shows the whole map."""
    page.js('roskevad.panels.showLog(arguments[0])', has_log)
    page.js('return new Promise(done => setTimeout(done, 200))')
    page.js('roskevad.view.fit()')


def lesson(page):
    """The tasks of the example world, in the words of docs/page.md."""
    page.open()
    picture(page, 'page-start', 'header', '#start-hint')
    page.click('#try')
    page.wait(lambda: page.find('#lesson').is_displayed(), 'the lesson')
    fit(page)
    take_tile(page, PATH)
    picture(page, 'page-path', '#left', '#middle')
    page.drag([(21, 20), (24, 20), (26, 20)])
    page.click('#lesson-next')
    page.click('#macro')
    choose(page, 'Cottages')
    page.keys('p')
    take_tile(page, ROOF)
    page.drag([(23, 3), (27, 5)])
    take_tile(page, WALL)
    page.drag([(23, 6), (27, 6)])
    take_tile(page, DOOR)
    page.drag([(25, 6)])
    picture(page, 'page-house', '#middle', '#right')
    page.click('#macro')
    page.click('#lesson-next')
    page.ctrl('z')
    picture(page, 'page-undo', '#middle', '#right')


def town(page):
    """A stroke, its step and its lines."""
    fit(page, has_log=False)
    picture(page, 'page')
    take_tile(page, PATH)
    fit(page, has_log=True)
    page.drag([(21, 20), (23, 20), (26, 20)])
    picture(page, 'page-steps', '#middle', '#right')


def main():
    browser().execute_cdp_cmd('Emulation.setDeviceMetricsOverride', SCREEN)
    browser().execute_cdp_cmd('Emulation.setEmulatedMedia', {'features': LOOKS})
    for files, made in (((), lesson), (('town.tmj',), town)):
        with Bench(*files, empty=not files) as page:
            page.has_log = False
            made(page)


if __name__ == '__main__':
    main()
