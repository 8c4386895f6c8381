# SPDX-License-Identifier: MIT OR Apache-2.0
"""Chromium without a window, the page in it, the hand on it, and the pixels that it shows."""
import atexit
import base64
import functools
import json
import os
import shutil
import subprocess
import tempfile
import time
import urllib.parse
from pathlib import Path

from lib.places import TOP
from selenium import webdriver
from selenium.common.exceptions import StaleElementReferenceException
from selenium.webdriver.chrome.service import Service
from selenium.webdriver.common.action_chains import ActionChains
from selenium.webdriver.common.by import By
from selenium.webdriver.common.keys import Keys

# How many seconds a thing may take that the page must show at last: other steps may take the
# processors.
WAIT = 60


# Where the browser puts what it downloads.
DOWNLOADS = Path(tempfile.mkdtemp(prefix='roskevad_downloads_'))
atexit.register(shutil.rmtree, DOWNLOADS, ignore_errors=True)


@functools.cache
def browser():
    """Chromium by its driver, one for all tests of a step. It keeps what the page logs."""
    # Chromium leaves files behind, so it has a folder of its own.
    folder = tempfile.mkdtemp(prefix='roskevad_chromium_')
    atexit.register(shutil.rmtree, folder, ignore_errors=True)
    driver = started(folder=folder)
    atexit.register(driver.quit)
    return driver


def started(*more, folder=None):
    """A new Chromium."""
    flags = webdriver.ChromeOptions()
    for flag in (
        '--headless=new',
        '--disable-gpu',
        '--disable-dev-shm-usage',
        '--window-size=1320,1040',
        '--force-device-scale-factor=1',
        *more,
    ):
        flags.add_argument(flag)
    if os.getuid() == 0:
        # Chromium has no sandbox for root.
        flags.add_argument('--no-sandbox')
    flags.binary_location = shutil.which('chromium')
    flags.set_capability('goog:loggingPrefs', {'browser': 'ALL', 'performance': 'ALL' if more else 'OFF'})
    downloads = {'download.default_directory': str(DOWNLOADS), 'download.prompt_for_download': False}
    flags.add_experimental_option('prefs', downloads)
    env = {**os.environ, **({'TMPDIR': folder} if folder else {})}
    driver = webdriver.Chrome(service=Service(shutil.which('chromedriver'), env=env), options=flags)
    driver.set_window_size(1320, 1040)
    return driver


def anew(act):
    """Does it again where the page renews, meanwhile, what it looks at."""

    @functools.wraps(act)
    def tried(*words, **named):
        end = time.monotonic() + WAIT
        while True:
            try:
                return act(*words, **named)
            except StaleElementReferenceException:
                if time.monotonic() > end:
                    raise

    return tried


PIXELS = '''
const [data, points, done] = arguments;
const image = new Image();
image.onload = () => {
  const pen = new OffscreenCanvas(image.width, image.height).getContext("2d", {willReadFrequently: true});
  pen.drawImage(image, 0, 0);
  done(points.map(([x, y]) => [...pen.getImageData(x, y, 1, 1).data]));
};
image.src = "data:image/png;base64," + data;'''


def pixels(driver, data, points):
    """Red, green, blue and alpha of a PNG at these points; the browser unpacks it."""
    told = driver.execute_async_script(
        PIXELS, base64.b64encode(data).decode(), [list(point) for point in points]
    )
    return [tuple(each) for each in told]


class Server:
    """`./tile_page` on a folder."""

    def __init__(self, folder, *words):
        self.program = subprocess.Popen(
            [TOP / 'tile_page', '--folder', folder, *words], stdout=subprocess.PIPE, text=True
        )
        self.told = [self.program.stdout.readline().strip() for _ in range(3)]
        self.address = self.told[1]
        self.parts = urllib.parse.urlsplit(self.address)

    def end(self):
        self.program.terminate()
        status = self.program.wait(WAIT)
        self.program.stdout.close()
        return status


class Session:
    """The editor in a page: lines for it, and what it has."""

    def __init__(self, page):
        self.page = page

    def lines(self, *said):
        """The replies to lines, all of which are done."""
        told = self.page.js(
            'return roskevad.editor.send(arguments[0], {isFree: true}).then(done => done.replies)',
            said,
        )
        self.page.settle()
        return told

    def state(self):
        return self.page.js(
            'const {editor} = roskevad;'
            'return {...editor.standing(), selection: editor.editor.selection()}'
        )

    def map(self):
        return json.loads(self.shown())

    def map_with_fractions(self):
        """The map, in which what was set aside is put back."""
        return self.page.js('return roskevad.editor.editor.active.map()')

    def shown(self):
        """The bytes of the map, as the line `show` tells them."""
        return self.page.js('return roskevad.editor.editor.step("show").slice(4)').encode()

    def session(self):
        return self.page.js('return roskevad.editor.copied()').encode()


# Where a question stands on the page, what is under way waits for its answer. The list of steps waits for quick edits.
QUIET = 'return (roskevad.editor.isQuiet && !roskevad.steps.isLate) || document.querySelector("dialog[open]:not([data-busy])") !== null'
CLEAR = '''
const done = arguments[0];
sessionStorage.clear();
const asked = indexedDB.deleteDatabase("roskevad");
asked.onsuccess = () => done("");
asked.onerror = asked.onblocked = () => done("the journals are still open");'''


class Page:
    """A tab of the browser with the page in it, and the hand on it."""

    def __init__(self, driver, address):
        self.driver, self.address = driver, address
        self.editor = Session(self)
        # Whether the log is unfolded at once, for those who type lines or look at them.
        self.has_log = True

    def clear(self, blank):
        """Has the browser forget all that pages of an origin have kept, by another page of it."""
        self.driver.get(blank)
        told = self.driver.execute_async_script(CLEAR)
        assert not told, told

    def open(self, address=None):
        self.driver.get(address or self.address)
        self.wait_ready()

    def reload(self):
        self.driver.refresh()
        self.wait_ready()

    def wait_ready(self):
        self.wait(lambda: self.js('return document.body.dataset.isReady'), 'the page is ready')
        if self.has_log:
            self.unfold_log()
        self.settle()

    def js(self, code, *words):
        return self.driver.execute_script(code, *words)

    def wait(self, test, what):
        end = time.monotonic() + WAIT
        while time.monotonic() < end:
            if test():
                return
            time.sleep(0.04)
        raise AssertionError(f'not within {WAIT} seconds: {what}')

    def settle(self):
        """Waits until the page shows what the editor has, and the journal has it."""
        self.wait(lambda: self.js(QUIET), 'the page is quiet')
        self.js(
            'return new Promise(done => requestAnimationFrame(() => requestAnimationFrame(done)))'
        )

    def notices(self):
        return self.js('return [...document.querySelectorAll("#notice-bars .notice")].map(each => each.innerText)')

    def answer(self, text):
        """Clicks at a button of a notice. The page hears of it a moment later."""
        self.wait(lambda: self.press('#notice-bars button', text), f'a notice has {text}')
        self.js('return new Promise(done => setTimeout(done, 50))')
        self.settle()

    @anew
    def press(self, css, text):
        """Clicks at the first button of these with a text; whether there is one."""
        found = next((each for each in self.driver.find_elements(By.CSS_SELECTOR, css) if each.text == text), None)
        if found is not None:
            found.click()
        return found is not None

    def choose_files(self, *paths):
        """Chooses files, as the chooser of 'Open files' gives them."""
        self.find('#files').send_keys('\n'.join(map(str, paths)))
        self.wait(
            lambda: self.js(
                'return arguments[0].every(name => roskevad.editor.place.files?.has(name))',
                [Path(path).name for path in paths],
            ),
            'the files are read',
        )
        self.js('return new Promise(done => setTimeout(done, 100))')
        self.settle()

    # ---- the hand
    def find(self, css):
        return self.driver.find_element(By.CSS_SELECTOR, css)

    @anew
    def click_at(self, css):
        self.find(css).click()

    def click(self, css):
        self.click_at(css)
        self.settle()

    @anew
    def double_click(self, find, is_done, across=0):
        """Clicks twice at what `find` gives, so many pixels right of its middle, until it is done: where other
        steps take the processors, two clicks may be so far apart that they are no double click."""
        end = time.monotonic() + WAIT
        while time.monotonic() < end:
            hand = ActionChains(self.driver, duration=0).move_to_element_with_offset(find(), across, 0)
            hand.double_click().perform()
            soon = time.monotonic() + 2
            while time.monotonic() < soon:
                if is_done():
                    return
                time.sleep(0.04)
        raise AssertionError(f'not within {WAIT} seconds: a double click is one')

    def point(self, cell):
        """Where the middle of a cell is in the window."""
        return [int(each) for each in self.js('return roskevad.view.middleOf(...arguments)', *cell)]

    def drag(self, cells, *keys, button=0):
        """Presses at the first cell, goes over the others, and lets go, with keys held down."""
        self.drag_points([self.point(cell) for cell in cells], *keys, button=button)

    def drag_points(self, points, *keys, button=0):
        chain = ActionChains(self.driver, duration=30)
        for key in keys:
            chain.key_down(key)
        hand = chain.w3c_actions.pointer_action
        hand.move_to_location(*points[0])
        hand.pointer_down(button=button)
        for point in points[1:]:
            hand.move_to_location(*point)
        hand.pointer_up(button=button)
        chain.perform()
        chain = ActionChains(self.driver)
        for key in keys:
            chain.key_up(key)
        chain.perform()
        self.settle()

    def hold(self, points, *keys, is_pressed=True):
        """Presses at the first point of the window and goes over the others, with keys held down; or only goes
        there, where nothing is to be pressed. `let_go` ends it."""
        chain = ActionChains(self.driver, duration=30)
        for key in keys:
            chain.key_down(key)
        hand = chain.w3c_actions.pointer_action
        for at, point in enumerate(points):
            hand.move_to_location(*point)
            if is_pressed and at == 0:
                hand.pointer_down(button=0)
        chain.perform()
        self.settle()

    def hold_cells(self, cells, *keys, is_pressed=True):
        """The same over the middles of cells."""
        self.hold([self.point(cell) for cell in cells], *keys, is_pressed=is_pressed)

    def let_go(self, *keys):
        """Lets go of the button, and of keys that were held."""
        chain = ActionChains(self.driver, duration=30)
        chain.w3c_actions.pointer_action.pointer_up(button=0)
        for key in keys:
            chain.key_up(key)
        chain.perform()
        self.settle()

    def stroke(self, cells, *lines):
        """A stroke over these cells, by events that the page gives itself: quicker than the
        driver's hand. The page sends lines at once before it, if there are any."""
        code = '''const [cells, lines] = arguments, {view, bench} = roskevad;
                  if (lines.length) bench.act(lines);
                  view.box.setPointerCapture = () => {};
                  const tell = (kind, cell) => {
                    const [x, y] = view.middleOf(...cell);
                    view.box.dispatchEvent(new PointerEvent(kind, {clientX: x, clientY: y, button: 0, pointerId: 7, bubbles: true}));
                  };
                  tell("pointerdown", cells[0]);
                  for (const cell of cells.slice(1)) tell("pointermove", cell);
                  tell("pointerup", cells[cells.length - 1]);'''
        self.js(code, [list(cell) for cell in cells], lines)
        self.settle()

    def keys(self, text, *held):
        """Presses keys, with others held down, where no field has them."""
        self.js('document.activeElement?.blur()')
        chain = ActionChains(self.driver)
        for key in held:
            chain.key_down(key)
        for each in text if isinstance(text, str) and len(text) > 1 and text.isascii() else [text]:
            chain.send_keys(each)
        for key in held:
            chain.key_up(key)
        chain.perform()
        self.settle()

    def ctrl(self, key, *more):
        self.keys(key, Keys.CONTROL, *more)

    def unfold_log(self):
        self.js('globalThis.roskevad?.panels.showLog(true)')

    def say(self, line):
        """Types a line into the box."""
        self.unfold_log()
        self.find('#line').send_keys(line, Keys.ENTER)
        self.settle()

    def fill_in(self, answer='OK', **fields):
        """Fills in the dialog that stands there, and answers it."""
        self.wait(lambda: self.driver.find_elements(By.CSS_SELECTOR, 'dialog[open]'), 'a dialog')
        for name, value in fields.items():
            field = self.find(f'dialog [name={name}]')
            field.clear()
            field.send_keys(str(value))
        self.press('dialog button', answer)
        # The page hears of the answer a moment later.
        self.js('return new Promise(done => setTimeout(done, 50))')
        self.settle()

    def type_into(self, css, value):
        """Types a value over that of a field of a table, and goes on."""
        self.type_at(css, value)
        self.settle()

    @anew
    def type_at(self, css, value):
        field = self.find(css)
        field.click()
        field.send_keys(Keys.CONTROL, 'a')
        field.send_keys(Keys.NULL, str(value), Keys.TAB)

    # ---- what is seen
    @anew
    def bubble(self):
        return self.find('#bubble').text

    @anew
    def texts(self, css):
        return [each.text for each in self.driver.find_elements(By.CSS_SELECTOR, css)]

    def picture(self, path=None):
        """What is seen, with the hand away from the map."""
        chain = ActionChains(self.driver, duration=0)
        chain.w3c_actions.pointer_action.move_to_location(4, 4)
        self.js('document.getElementById("bubble").hidden = true')
        chain.perform()
        self.settle()
        data = base64.b64decode(self.driver.get_screenshot_as_base64())
        if path:
            Path(path).write_bytes(data)
        return data

    def colours(self, points):
        """The colours that are seen at points of the window."""
        return [each[:3] for each in pixels(self.driver, self.picture(), points)]

    def places(self, cells, pixel):
        """Where a pixel of the tile in each of these cells is in the window."""
        code = '''const [view, cells, across, down] = [roskevad.view, ...arguments];
                  const frame = view.box.getBoundingClientRect();
                  const at = (origin, cell, side, pixel) => Math.floor(origin + (cell * side + pixel + 0.5) * view.scale);
                  return cells.map(([x, y]) => [frame.left + at(view.originX, x, view.map.tileWidth, across),
                                                frame.top + at(view.originY, y, view.map.tileHeight, down)]);'''
        return [
            [int(each) for each in place]
            for place in self.js(code, [list(cell) for cell in cells], *pixel)
        ]

    def log(self):
        """What the browser has logged as errors since it was asked last. It asks for the picture of a
        blank page, which has none."""
        errors = [each for each in self.driver.get_log('browser') if each['level'] == 'SEVERE']
        return [each for each in errors if '/favicon.ico' not in each['message']]
