# SPDX-License-Identifier: MIT OR Apache-2.0
"""Renames a property in all maps of a folder, in the map, its layers and its objects. From the top of a clone:

    python3 examples/rename_property.py FOLDER OLD NEW

Its place, its type, its value and all else of it stay, whatever they are, and the names may be any texts. A map is one step, and is saved if
all of it is done. It stays as it is, and the exit status is 1, where it is refused, and where something has a property NEW already.
"""
import sys
from typing import Any, Iterator

from edit_maps import edit_maps, maps_in
from roskevad import Document, Properties

# A property as a file has it: its name, its value, perhaps its type, and more.
Listed = list[dict[str, Any]]


def owners(document: Document) -> Iterator[tuple[str, Properties, Listed]]:
    """All that has properties, each with its name, and with them as its file has them."""
    yield 'the map', document.properties, document.outline().get('properties', [])
    for layer in document.layers.walk():
        yield f'layer {layer.id} {layer.name!r}', layer.properties, layer.members.get('properties', [])
    for each in document.objects:
        yield f'object {each.id} {each.name!r}', each.properties, each.members.get('properties', [])


def put_anew(properties: Properties, listed: Listed, old: str, new: str) -> None:
    """Takes out a property and those behind it, and puts them in again, the first one with another name."""
    names = [each['name'] for each in listed]
    behind = listed[names.index(old):]
    for each in behind:
        del properties[each['name']]
    for each in behind:
        properties.put({**each, 'name': new if each['name'] == old else each['name']})


def rename(document: Document, old: str, new: str) -> int:
    """Renames a property, as one step; how many there were. Raises ValueError where one can't be renamed, and Error: then none is."""
    count = 0
    with document.macro('Rename property'):
        for owner, properties, listed in owners(document):
            if old in properties:
                if new in properties:
                    raise ValueError(f'{owner} has a property {new!r}, too')
                put_anew(properties, listed, old, new)
                count += 1
    return count


def main() -> int:
    if len(sys.argv) != 4:
        sys.exit('usage: python3 examples/rename_property.py FOLDER OLD NEW')
    return edit_maps(maps_in(sys.argv[1]), lambda document: f'{rename(document, *sys.argv[2:])} renamed')


if __name__ == '__main__':
    sys.exit(main())
