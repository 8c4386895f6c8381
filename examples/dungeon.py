# SPDX-License-Identifier: MIT OR Apache-2.0
"""Makes a map of random rooms and corridors, with a spawn point in each room. From the top of a clone:

    python3 examples/dungeon.py MAP [SEED]

The same seed makes the same map. MAP is written where it was not there before. The tileset is that of examples/maps, whose file should
stand in the folder of the map: the package reads no tileset.
"""
import random
import sys
from pathlib import Path

TOP = Path(__file__).resolve().parent.parent
sys.path.insert(0, str(TOP / 'python'))

from roskevad import Document, Editor, Refused  # noqa: E402

WIDTH, HEIGHT, TILE, ROOMS = 200, 200, 16, 40
FLOOR, WALL = 2, 9  # their IDs in Tiled: planks, and a wall
Room = tuple[int, int, int, int]


def random_rooms(dice: random.Random) -> list[Room]:
    """Rooms, each as its column, row, width and height, with a wall around the map."""
    sizes = [(dice.randrange(5, 16), dice.randrange(5, 12)) for _ in range(ROOMS)]
    return [(dice.randrange(1, WIDTH - width), dice.randrange(1, HEIGHT - height), width, height) for width, height in sizes]


def middle(room: Room) -> tuple[int, int]:
    x, y, width, height = room
    return x + width // 2, y + height // 2


def dig(document: Document, rooms: list[Room]) -> None:
    """Takes rooms out of the wall, and a corridor from each room to the next one; then floors all that can be reached."""
    floor, wall = (document.tilesets[1].value(id) for id in (FLOOR, WALL))
    layer = document.layers[1]
    layer.name = 'Floor'
    document.stamp(layer, 0, 0, [[wall] * WIDTH] * HEIGHT)
    for room in rooms:
        document.erase(layer, *room)
    for (x, y), (to_x, to_y) in zip(map(middle, rooms), map(middle, rooms[1:])):
        document.erase(layer, min(x, to_x), y, abs(x - to_x) + 1, 1)
        document.erase(layer, to_x, min(y, to_y), 1, abs(y - to_y) + 1)
    document.fill(layer, *middle(rooms[0]), floor)


def add_spawn_points(document: Document, rooms: list[Room]) -> None:
    """Puts a point of the class Spawn into the middle of each room, with properties; that of the first room is the player's."""
    points = document.layers.add('object', 'Spawn points').objects
    for number, room in enumerate(rooms):
        x, y = middle(room)
        spawn = points.add('player' if number == 0 else f'monster {number}', x * TILE + TILE // 2, y * TILE + TILE // 2)
        spawn.class_name = 'Spawn'
        spawn.members['point'] = True
        spawn.properties['team'] = 1 if number == 0 else 2
        spawn.properties['facing'] = 'south'


def main() -> None:
    if len(sys.argv) not in (2, 3):
        sys.exit('usage: python3 examples/dungeon.py MAP [SEED]')
    path = Path(sys.argv[1])
    if path.exists():
        sys.exit(f'{path} is there already')
    rooms = random_rooms(random.Random(sys.argv[2] if sys.argv[2:] else None))
    with Editor() as editor:
        document = editor.new('dungeon', WIDTH, HEIGHT, TILE, TILE, 'town.tsj')
        with document.macro('Dungeon', action='dig a dungeon'):
            dig(document, rooms)
            add_spawn_points(document, rooms)
        try:
            document.save(path)
        except Refused as refusal:
            document.discard()
            sys.exit(f'{path}: {refusal}')
        print(f'{path}: {len(rooms)} rooms, {len(document.objects)} spawn points')


if __name__ == '__main__':
    main()
