/* A map as Tiled has it: what is new, and what is looked for.
 *
 * SPDX-License-Identifier: MIT OR Apache-2.0
 * Copyright (c) 2026 the Roskevad authors */
#include "map.h"

Layer *Map::layerById(quint32 id) const
{
    for (const auto &layer : layers) {
        if (quint32(layer->id) == id)
            return layer.get();
    }
    return nullptr;
}

/* The tileset with the greatest first id that is not above the tile's. */
const Tileset *Map::tilesetOf(Cell cell) const
{
    const quint32 id = cell & IdMask;
    for (auto tileset = tilesets.rbegin(); tileset != tilesets.rend(); ++tileset) {
        if (tileset->firstGid <= id)
            return &*tileset;
    }
    return nullptr;
}

std::unique_ptr<Layer> createLayer(const Map &map, Layer::Type type, const QByteArray &name)
{
    auto layer = std::make_unique<Layer>();
    layer->id = map.nextLayerId;
    layer->name = name;
    layer->type = type;
    layer->others = {{"opacity", 1}, {"x", 0}, {"y", 0}};
    if (type == Layer::TileLayerType)
        layer->cells.resize(size_t(map.width) * size_t(map.height));
    else
        layer->others.insert("draworder", "topdown");
    return layer;
}

std::unique_ptr<Map> createMap(int width, int height, int tileWidth, int tileHeight,
                               const QByteArray &source)
{
    auto map = std::make_unique<Map>();
    map->width = width;
    map->height = height;
    map->tileWidth = tileWidth;
    map->tileHeight = tileHeight;
    map->others = {{"orientation", "orthogonal"}, {"renderorder", "right-down"}};
    map->tilesets.push_back({1, source, {}});
    map->layers.push_back(createLayer(*map, Layer::TileLayerType, "Tile Layer 1"));
    map->nextLayerId = 2;
    return map;
}

MapDocument::MapDocument(const QByteArray &name, std::unique_ptr<Map> map)
    : name(name), map(std::move(map)), selectedArea(this->map->height)
{
    undoStack.blockSignals(true);
    for (const auto &layer : this->map->layers) {
        for (const auto &object : layer->objects)
            objectsById.insert(quint32(object->id), object.get());
    }
}
