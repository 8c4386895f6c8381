/* A map as Tiled has it: layers, objects, tilesets, properties; and a document with its undo stack.
 *
 * SPDX-License-Identifier: MIT OR Apache-2.0
 * Copyright (c) 2026 the Roskevad authors */
#pragma once

#include "selectedarea.h"

#include <QByteArray>
#include <QHash>
#include <QJsonObject>
#include <QJsonValue>
#include <QUndoStack>

#include <memory>
#include <optional>
#include <vector>

class PaintTileLayer;

/* A global tile id with its flags; 0 is an empty cell. */
using Cell = quint32;

constexpr Cell IdMask = 0x0fffffffu;

struct Property {
    QByteArray name;
    QByteArray type;
    QJsonValue value;
    QJsonObject others; /* members that the editor does not know */
};

using Properties = std::vector<Property>;

struct MapObject {
    int id = 0;
    std::optional<int> x, y, width, height;
    std::optional<QByteArray> name;
    std::optional<bool> visible;
    std::optional<Cell> cell;
    Properties properties;
    QJsonObject others;
};

struct Layer {
    enum Type { TileLayerType, ObjectGroupType, ImageLayerType };
    enum Format { Csv, Base64 };

    int id = 0;
    QByteArray name;
    bool visible = true;
    Type type = TileLayerType;
    Format format = Csv;
    std::vector<Cell> cells; /* row by row, of a tile layer */
    std::vector<std::unique_ptr<MapObject>> objects;
    Properties properties;
    QJsonObject others;
};

struct Tileset {
    quint32 firstGid = 1;
    std::optional<QByteArray> source;
    QJsonObject others;
};

struct Map {
    int width = 0;
    int height = 0;
    int tileWidth = 0;
    int tileHeight = 0;
    int nextLayerId = 1;
    int nextObjectId = 1;
    std::vector<std::unique_ptr<Layer>> layers;
    std::vector<Tileset> tilesets; /* by rising first ids */
    Properties properties;
    QJsonObject others;

    Layer *layerById(quint32 id) const;
    const Tileset *tilesetOf(Cell cell) const;
    bool contains(int x, int y) const { return x >= 0 && y >= 0 && x < width && y < height; }
    size_t placeOf(int x, int y) const { return size_t(y) * size_t(width) + size_t(x); }
};

/* The map of `new`: one empty tile layer and one tileset. */
std::unique_ptr<Map> createMap(int width, int height, int tileWidth, int tileHeight,
                               const QByteArray &source);
std::unique_ptr<Layer> createLayer(const Map &map, Layer::Type type, const QByteArray &name);

/* An open map. The stack goes first when it is destroyed: its commands point to the others. */
struct MapDocument {
    MapDocument(const QByteArray &name, std::unique_ptr<Map> map);

    QByteArray name;
    std::unique_ptr<Map> map;
    SelectedArea selectedArea;
    QHash<quint32, MapObject *> objectsById;
    int openMacros = 0;

    /* While a stroke grows: for each cell of the map where the stroke has it in its list. */
    std::vector<quint32> strokePlaces;
    const PaintTileLayer *stroke = nullptr;

    QUndoStack undoStack;
};
