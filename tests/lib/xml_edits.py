# SPDX-License-Identifier: MIT OR Apache-2.0
"""An edit of each kind, done by the Python package. Each tells whether the map has something that it can be done to."""
import re


def tile_layers(document):
    return [layer for layer in document.layers.walk() if layer.kind == 'tile']


def stamp(document, chosen):
    layers, first = tile_layers(document), document.tilesets.first
    if not layers or first is None:
        return False
    layer, x, y = chosen.choice(layers), chosen.randrange(document.width), chosen.randrange(document.height)
    is_first = layer.cells(x, y, 1, 1)[0] == first.first_id
    document.stamp(layer, x, y, [[first.first_id + is_first]])
    return True


def erase(document, chosen):
    layers = tile_layers(document)
    if layers:
        document.erase(chosen.choice(layers), chosen.randrange(document.width), chosen.randrange(document.height), 2, 2)
    return bool(layers)


def set_map_property(document, chosen):
    value = chosen.choice((5, 'a<b>&"c"', True))
    document.properties[f'new {type(value).__name__}'] = value
    return True


def set_layer_property(document, chosen):
    layers = list(document.layers.walk())
    if layers:
        chosen.choice(layers).properties['of layer'] = 5
    return bool(layers)


def set_object_property(document, chosen):
    objects = list(document.objects)
    if objects:
        chosen.choice(objects).properties['of object'] = 7
    return bool(objects)


def remove_property(document, chosen):
    for owner in (document, *document.layers.walk(), *document.objects):
        names = [name for name in owner.properties.keys() if re.fullmatch(r'[A-Za-z0-9_.-]+', name)]
        if names:
            del owner.properties[chosen.choice(names)]
            return True
    return False


def move_object(document, chosen):
    objects = list(document.objects)
    if objects:
        chosen.choice(objects).move(chosen.randrange(500), chosen.randrange(500))
    return bool(objects)


def add_object(document, chosen):
    layers = [layer for layer in document.layers.walk() if layer.kind == 'object']
    if layers:
        chosen.choice(layers).objects.add('n', chosen.randrange(99), 3, 4, 5)
    return bool(layers)


def remove_object(document, chosen):
    objects = list(document.objects)
    if objects:
        chosen.choice(objects).remove()
    return bool(objects)


def add_layer(document, chosen):
    document.layers.add(chosen.choice(('tile', 'object')), 'New')
    return True


def rename_layer(document, chosen):
    layers = list(document.layers.walk())
    if layers:
        chosen.choice(layers).name = 'Renamed'
    return bool(layers)


def turn_layer(document, chosen):
    layers = list(document.layers.walk())
    if layers:
        layer = chosen.choice(layers)
        layer.visible = not layer.visible
    return bool(layers)


def move_layer(document, chosen):
    layers = list(document.layers)
    if len(layers) > 1:
        layers[-1].move(0)
    return len(layers) > 1


def remove_layer(document, chosen):
    layers = list(document.layers)
    if layers:
        chosen.choice(layers).remove()
    return bool(layers)


def resize(document, chosen):
    document.resize(document.width + 1, document.height + 2, 1, 0)
    return True


ALL = (
    stamp, erase, set_map_property, set_layer_property, set_object_property, remove_property, move_object, add_object, remove_object, add_layer,
    rename_layer, turn_layer, move_layer, remove_layer, resize,
)
