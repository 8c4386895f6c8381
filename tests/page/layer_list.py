# SPDX-License-Identifier: MIT OR Apache-2.0
"""The list of layers on the page: its rows, and where the hand takes them."""
# The line that shows where a layer would go.
DROP = (0x8A, 0x5A, 0x00)


def row_of(page, number):
    """The row of a layer: left, top, width, height."""
    return page.js(
        'const box = document.querySelector(`#layers li[data-layer="${arguments[0]}"]`).getBoundingClientRect();'
        'return [box.left, box.top, box.width, box.height]',
        number,
    )


def point_in(page, number, share=0.5):
    left, top, _, height = row_of(page, number)
    return [int(left + 120), int(top + height * share)]


def ids_of(layers):
    return [layer['id'] for layer in layers]


def make_room(page):
    """Has the list of layers high enough for all."""
    for panel in ('properties', 'steps'):
        page.click(f'#panel-{panel} h2')


def now(page):
    return page.js('return roskevad.bench.layerId')
