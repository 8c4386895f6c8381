/* Reads and writes Tiled's JSON maps. Cells are written without a tree.
 *
 * SPDX-License-Identifier: MIT OR Apache-2.0
 * Copyright (c) 2026 the Roskevad authors */
#include "jsonmapformat.h"

#include <QJsonArray>
#include <QJsonDocument>

#include <charconv>
#include <cstring>

namespace {

// ---- reading

/* Thrown with the code of a refusal. */
struct Refused {
    int code;
};

QJsonValue taken(QJsonObject &tree, const char *name)
{
    return tree.take(QLatin1String(name));
}

int takenNumber(QJsonObject &tree, const char *name)
{
    const QJsonValue value = taken(tree, name);
    if (value.isUndefined())
        throw Refused{62};
    if (!value.isDouble())
        throw Refused{63};
    return value.toInt();
}

std::optional<int> takenPixels(QJsonObject &tree, const char *name)
{
    return tree.contains(QLatin1String(name)) ? std::optional<int>(takenNumber(tree, name))
                                              : std::nullopt;
}

Properties takenProperties(QJsonObject &tree)
{
    Properties properties;
    for (const QJsonValue &each : taken(tree, "properties").toArray()) {
        Property property;
        property.others = each.toObject();
        property.name = taken(property.others, "name").toString().toUtf8();
        property.type = taken(property.others, "type").toString("string").toUtf8();
        property.value = taken(property.others, "value");
        properties.push_back(std::move(property));
    }
    return properties;
}

std::vector<Cell> cellsOfNumbers(const QJsonValue &data, size_t count)
{
    if (!data.isArray())
        throw Refused{63};
    const QJsonArray numbers = data.toArray();
    if (size_t(numbers.size()) != count)
        throw Refused{66};
    std::vector<Cell> cells;
    cells.reserve(count);
    for (const QJsonValueConstRef number : numbers) {
        const qint64 cell = number.toInteger(-1);
        if (cell < 0 || cell > 0xffffffffll)
            throw Refused{66};
        cells.push_back(Cell(cell));
    }
    return cells;
}

std::vector<Cell> cellsOfBase64(const QJsonValue &data, size_t count)
{
    if (!data.isString())
        throw Refused{63};
    const auto result = QByteArray::fromBase64Encoding(data.toString().toLatin1(),
                                                       QByteArray::AbortOnBase64DecodingErrors);
    if (!result || size_t(result.decoded.size()) != count * sizeof(Cell))
        throw Refused{66};
    std::vector<Cell> cells(count);
    memcpy(cells.data(), result.decoded.constData(), count * sizeof(Cell));
    return cells;
}

void readCells(Layer &layer, const Map &map)
{
    const QJsonValue encoding = taken(layer.others, "encoding");
    if (!taken(layer.others, "compression").toString().isEmpty())
        throw Refused{65};
    taken(layer.others, "width");
    taken(layer.others, "height");
    const QJsonValue data = taken(layer.others, "data");
    if (data.isUndefined())
        throw Refused{62};
    const size_t count = size_t(map.width) * size_t(map.height);
    layer.format = encoding.toString() == QLatin1String("base64") ? Layer::Base64 : Layer::Csv;
    layer.cells = layer.format == Layer::Base64 ? cellsOfBase64(data, count)
                                                : cellsOfNumbers(data, count);
}

std::unique_ptr<MapObject> readObject(QJsonObject tree)
{
    auto object = std::make_unique<MapObject>();
    object->id = takenNumber(tree, "id");
    object->x = takenPixels(tree, "x");
    object->y = takenPixels(tree, "y");
    object->width = takenPixels(tree, "width");
    object->height = takenPixels(tree, "height");
    if (tree.contains(QLatin1String("name")))
        object->name = taken(tree, "name").toString().toUtf8();
    if (tree.contains(QLatin1String("visible")))
        object->visible = taken(tree, "visible").toBool();
    if (tree.contains(QLatin1String("gid")))
        object->cell = Cell(taken(tree, "gid").toInteger());
    object->properties = takenProperties(tree);
    object->others = tree;
    return object;
}

std::unique_ptr<Layer> readLayer(QJsonObject tree, const Map &map)
{
    auto layer = std::make_unique<Layer>();
    const QString type = taken(tree, "type").toString();
    layer->id = takenNumber(tree, "id");
    layer->name = taken(tree, "name").toString().toUtf8();
    layer->visible = taken(tree, "visible").toBool(true);
    layer->properties = takenProperties(tree);
    layer->others = std::move(tree);
    if (type == QLatin1String("tilelayer")) {
        readCells(*layer, map);
    } else if (type == QLatin1String("objectgroup")) {
        layer->type = Layer::ObjectGroupType;
        for (const QJsonValue &each : taken(layer->others, "objects").toArray())
            layer->objects.push_back(readObject(each.toObject()));
    } else if (type == QLatin1String("imagelayer")) {
        layer->type = Layer::ImageLayerType;
    } else {
        throw Refused{63};
    }
    return layer;
}

Tileset readTileset(QJsonObject tree)
{
    Tileset tileset;
    tileset.firstGid = quint32(takenNumber(tree, "firstgid"));
    if (tree.contains(QLatin1String("source")))
        tileset.source = taken(tree, "source").toString().toUtf8();
    tileset.others = tree;
    return tileset;
}

std::unique_ptr<Map> readTree(QJsonObject tree)
{
    auto map = std::make_unique<Map>();
    if (taken(tree, "type").toString() != QLatin1String("map"))
        throw Refused{69};
    taken(tree, "version");
    map->width = takenNumber(tree, "width");
    map->height = takenNumber(tree, "height");
    map->tileWidth = takenNumber(tree, "tilewidth");
    map->tileHeight = takenNumber(tree, "tileheight");
    if (taken(tree, "infinite").toBool())
        throw Refused{64};
    if (map->width < 1 || map->height < 1 || qint64(map->width) * map->height > 1048576)
        throw Refused{68};
    map->nextLayerId = takenNumber(tree, "nextlayerid");
    map->nextObjectId = takenNumber(tree, "nextobjectid");
    const QJsonArray layers = taken(tree, "layers").toArray();
    for (const QJsonValue &each : layers)
        map->layers.push_back(readLayer(each.toObject(), *map));
    for (const QJsonValue &each : taken(tree, "tilesets").toArray())
        map->tilesets.push_back(readTileset(each.toObject()));
    map->properties = takenProperties(tree);
    map->others = tree;
    return map;
}

// ---- writing

QByteArray compact(const QJsonValue &value)
{
    const QByteArray text = QJsonDocument(QJsonArray{value}).toJson(QJsonDocument::Compact);
    return text.mid(1, text.size() - 2);
}

/* Writes the members of a tree. The one of that name is written by a function of its own. */
template <typename Function>
void writeMembers(QByteArray &text, const QJsonObject &tree, const char *name, Function writeValue)
{
    char separator = '{';
    for (auto member = tree.begin(); member != tree.end(); ++member) {
        text.append(separator).append(compact(member.key())).append(':');
        separator = ',';
        if (member.key() == QLatin1String(name))
            writeValue();
        else
            text.append(compact(member.value()));
    }
    text.append('}');
}

void writeNumbers(QByteArray &text, const std::vector<Cell> &cells)
{
    constexpr qsizetype Longest = 11;
    const qsizetype size = text.size();
    text.resize(size + qsizetype(cells.size()) * Longest + 2);
    char *at = text.data() + size;
    *at++ = '[';
    for (const Cell cell : cells) {
        at = std::to_chars(at, at + Longest, cell).ptr;
        *at++ = ',';
    }
    at[-1] = ']';
    text.resize(at - text.constData());
}

void writeCells(QByteArray &text, const Layer &layer)
{
    if (layer.format == Layer::Csv) {
        writeNumbers(text, layer.cells);
        return;
    }
    const auto *bytes = reinterpret_cast<const char *>(layer.cells.data());
    const qsizetype size = qsizetype(layer.cells.size() * sizeof(Cell));
    text.append('"').append(QByteArray::fromRawData(bytes, size).toBase64()).append('"');
}

QJsonArray treeOf(const Properties &properties)
{
    QJsonArray trees;
    for (const Property &property : properties) {
        QJsonObject tree = property.others;
        tree.insert("name", QString::fromUtf8(property.name));
        tree.insert("type", QString::fromUtf8(property.type));
        tree.insert("value", property.value);
        trees.append(tree);
    }
    return trees;
}

void insertProperties(QJsonObject &tree, const Properties &properties)
{
    if (!properties.empty())
        tree.insert("properties", treeOf(properties));
}

QJsonObject treeOf(const MapObject &object)
{
    QJsonObject tree = object.others;
    const auto insert = [&tree](const char *name, const auto &value) {
        if (value)
            tree.insert(QLatin1String(name), qint64(*value));
    };
    tree.insert("id", object.id);
    insert("x", object.x);
    insert("y", object.y);
    insert("width", object.width);
    insert("height", object.height);
    insert("gid", object.cell);
    if (object.name)
        tree.insert("name", QString::fromUtf8(*object.name));
    if (object.visible)
        tree.insert("visible", *object.visible);
    insertProperties(tree, object.properties);
    return tree;
}

QJsonObject ownTreeOf(const Layer &layer, const Map &map)
{
    static const char *const types[] = {"tilelayer", "objectgroup", "imagelayer"};
    QJsonObject tree = layer.others;
    tree.insert("id", layer.id);
    tree.insert("name", QString::fromUtf8(layer.name));
    tree.insert("type", QLatin1String(types[layer.type]));
    tree.insert("visible", layer.visible);
    insertProperties(tree, layer.properties);
    if (layer.type == Layer::TileLayerType) {
        tree.insert("data", 0);
        tree.insert("width", map.width);
        tree.insert("height", map.height);
        if (layer.format == Layer::Base64)
            tree.insert("encoding", "base64");
    } else if (layer.type == Layer::ObjectGroupType) {
        QJsonArray objects;
        for (const auto &object : layer.objects)
            objects.append(treeOf(*object));
        tree.insert("objects", objects);
    }
    return tree;
}

void writeLayers(QByteArray &text, const Map &map)
{
    char separator = '[';
    for (const auto &layer : map.layers) {
        text.append(separator);
        separator = ',';
        const bool hasCells = layer->type == Layer::TileLayerType;
        writeMembers(text, ownTreeOf(*layer, map), hasCells ? "data" : "",
                     [&] { writeCells(text, *layer); });
    }
    text.append(map.layers.empty() ? "[]" : "]");
}

QJsonArray treeOf(const std::vector<Tileset> &tilesets)
{
    QJsonArray trees;
    for (const Tileset &tileset : tilesets) {
        QJsonObject tree = tileset.others;
        tree.insert("firstgid", qint64(tileset.firstGid));
        if (tileset.source)
            tree.insert("source", QString::fromUtf8(*tileset.source));
        trees.append(tree);
    }
    return trees;
}

} // namespace

std::unique_ptr<Map> readMap(const QByteArray &bytes, int &refusal)
{
    const QJsonDocument document = QJsonDocument::fromJson(bytes);
    try {
        if (document.isNull())
            throw Refused{60};
        return readTree(document.object());
    } catch (const Refused &refused) {
        refusal = refused.code;
        return nullptr;
    }
}

QByteArray writeMap(const Map &map)
{
    QJsonObject tree = map.others;
    tree.insert("height", map.height);
    tree.insert("infinite", false);
    tree.insert("layers", 0);
    tree.insert("nextlayerid", map.nextLayerId);
    tree.insert("nextobjectid", map.nextObjectId);
    tree.insert("tileheight", map.tileHeight);
    tree.insert("tilesets", treeOf(map.tilesets));
    tree.insert("tilewidth", map.tileWidth);
    tree.insert("type", "map");
    tree.insert("version", "1.10");
    tree.insert("width", map.width);
    insertProperties(tree, map.properties);
    QByteArray text;
    writeMembers(text, tree, "layers", [&] { writeLayers(text, map); });
    return text;
}
