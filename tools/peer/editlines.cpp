/* The lines that edit the active document, and `tile`.
 *
 * SPDX-License-Identifier: MIT OR Apache-2.0
 * Copyright (c) 2026 the Roskevad authors */
#include "editor.h"
#include "flood.h"

#include <algorithm>

namespace {

constexpr quint32 MostColumns = 4096;
constexpr size_t MostLayers = 256;
constexpr size_t MostObjects = 4096;
constexpr size_t MostProperties = 256;

QByteArray copied(std::string_view text)
{
    return QByteArray(text.data(), qsizetype(text.size()));
}

} // namespace

/* The layer if it is of that type; else it refuses. */
Layer *Editor::layerOfType(quint32 id, Layer::Type type)
{
    Layer *const layer = mActive->map->layerById(id);
    if (layer && layer->type == type)
        return layer;
    refuse(layer ? 31 : 30);
    return nullptr;
}

bool Editor::isKnown(Cell cell) const
{
    const std::vector<Tileset> &tilesets = mActive->map->tilesets;
    return cell == 0 || (!tilesets.empty() && (cell & IdMask) >= tilesets.front().firstGid);
}

/* The part of a rectangle that lies in the map. */
CellRect Editor::cut(int x, int y, quint32 width, quint32 height) const
{
    const Map &map = *mActive->map;
    const int left = std::clamp(x, 0, map.width);
    const int top = std::clamp(y, 0, map.height);
    const int right = int(std::clamp<qint64>(qint64(x) + width, left, map.width));
    const int bottom = int(std::clamp<qint64>(qint64(y) + height, top, map.height));
    return {left, top, right - left, bottom - top};
}

/* Calls the function for the parts of the rows of a rectangle that may be changed. */
template <typename Function>
void Editor::forSpans(const CellRect &rect, Function function) const
{
    const SelectedArea &area = mActive->selectedArea;
    const int right = rect.x + rect.width;
    for (int row = rect.y; row < rect.y + rect.height; ++row) {
        if (area.isEmpty()) {
            function(row, rect.x, right);
            continue;
        }
        const Span *span = area.spanFrom(row, rect.x);
        for (; span != area.rowEnd(row) && span->first < right; ++span)
            function(row, std::max(int(span->first), rect.x), std::min(int(span->end), right));
    }
}

// ---- cells

void Editor::stamp(LineReader &reader, bool merges)
{
    quint32 layerId, width;
    int x, y;
    if (!reader.readNumber(layerId) || !reader.readCoordinate(x) || !reader.readCoordinate(y)
        || !reader.readNumber(width) || !reader.readNumbers(mNumbers) || width - 1 >= MostColumns
        || mNumbers.size() % width != 0)
        return refuse(4);
    if (!needDocument())
        return;
    Layer *const layer = layerOfType(layerId, Layer::TileLayerType);
    if (!layer)
        return;
    for (const Cell cell : mNumbers) {
        if (!isKnown(cell))
            return refuse(33);
    }
    CellChanges changes;
    const Map &map = *mActive->map;
    const CellRect rect = cut(x, y, width, quint32(mNumbers.size()) / width);
    forSpans(rect, [&](int row, int first, int end) {
        const Cell *stamped = mNumbers.data() + qptrdiff(row - y) * width + (first - x);
        size_t place = map.placeOf(first, row);
        for (int column = first; column < end; ++column, ++place, ++stamped) {
            const Cell before = layer->cells[place];
            if (*stamped != 0 && *stamped != before)
                changes.append({quint32(place), before, *stamped});
        }
    });
    push(new PaintTileLayer(StampId, merges, *mActive, *layer, std::move(changes)));
}

void Editor::erase(LineReader &reader, bool merges)
{
    quint32 layerId, width, height;
    int x, y;
    if (!reader.readNumber(layerId) || !reader.readCoordinate(x) || !reader.readCoordinate(y)
        || !reader.readNumber(width) || !reader.readNumber(height) || !reader.atEnd())
        return refuse(4);
    if (!needDocument())
        return;
    Layer *const layer = layerOfType(layerId, Layer::TileLayerType);
    if (!layer)
        return;
    CellChanges changes;
    const Map &map = *mActive->map;
    forSpans(cut(x, y, width, height), [&](int row, int first, int end) {
        for (size_t place = map.placeOf(first, row); place < map.placeOf(end, row); ++place) {
            if (layer->cells[place] != 0)
                changes.append({quint32(place), layer->cells[place], 0});
        }
    });
    push(new PaintTileLayer(EraseId, merges, *mActive, *layer, std::move(changes)));
}

void Editor::doFill(LineReader &reader)
{
    quint32 layerId, cell;
    int x, y;
    if (!reader.readNumber(layerId) || !reader.readCoordinate(x) || !reader.readCoordinate(y)
        || !reader.readNumber(cell) || !reader.atEnd())
        return refuse(4);
    if (!needDocument())
        return;
    Layer *const layer = layerOfType(layerId, Layer::TileLayerType);
    if (!layer)
        return;
    const Map &map = *mActive->map;
    if (!map.contains(x, y))
        return refuse(32);
    if (!isKnown(cell))
        return refuse(33);
    const Cell before = layer->cells[map.placeOf(x, y)];
    std::vector<CellRun> runs = flood(map, mActive->selectedArea, *layer, x, y, cell);
    push(new FillTileLayer(map, *layer, std::move(runs), before, cell));
}

void Editor::doTile(LineReader &reader)
{
    quint32 layerId;
    int x, y;
    if (!reader.readNumber(layerId) || !reader.readCoordinate(x) || !reader.readCoordinate(y)
        || !reader.atEnd())
        return refuse(4);
    if (!needDocument())
        return;
    const Layer *const layer = layerOfType(layerId, Layer::TileLayerType);
    if (!layer)
        return;
    const Map &map = *mActive->map;
    if (!map.contains(x, y))
        return refuse(32);
    const Cell cell = layer->cells[map.placeOf(x, y)];
    mReplies.begin();
    mReplies.write("tile ");
    mReplies.write(quint64(cell));
    if (cell != 0) {
        mReplies.write(' ');
        for (int bit = 0; bit < 4; ++bit)
            mReplies.write(cell & (0x80000000u >> bit) ? "hvdr"[bit] : '-');
        mReplies.write(' ');
        if (const Tileset *const tileset = map.tilesetOf(cell)) {
            mReplies.write(quint64(tileset->firstGid));
            mReplies.write(' ');
            mReplies.write(quint64((cell & IdMask) - tileset->firstGid));
        } else {
            mReplies.write("none");
        }
    }
    mReplies.write('\n');
}

void Editor::doSelect(LineReader &reader)
{
    static const QHash<QByteArray, SelectMode> modes = {{"replace", SelectMode::Replace},
                                                        {"add", SelectMode::Add},
                                                        {"subtract", SelectMode::Subtract},
                                                        {"intersect", SelectMode::Intersect}};
    std::string_view word;
    if (!reader.readWord(word))
        return refuse(4);
    if (word == "none" && reader.atEnd()) {
        if (needDocument())
            push(new ChangeSelectedArea(*mActive, SelectedArea(mActive->map->height)));
        return;
    }
    const auto mode = modes.constFind(QByteArray::fromRawData(word.data(), qsizetype(word.size())));
    int x, y;
    quint32 width, height;
    if (mode == modes.constEnd() || !reader.readCoordinate(x) || !reader.readCoordinate(y)
        || !reader.readNumber(width) || !reader.readNumber(height) || !reader.atEnd())
        return refuse(4);
    if (!needDocument())
        return;
    SelectedArea area = mActive->selectedArea.combined(*mode, cut(x, y, width, height));
    push(new ChangeSelectedArea(*mActive, std::move(area)));
}

// ---- layers and objects

void Editor::doLayer(LineReader &reader)
{
    std::string_view word, type, name;
    if (!reader.readWord(word) || word != "add" || !reader.readWord(type)
        || (type != "tile" && type != "object") || !reader.readText(name))
        return refuse(4);
    if (!needDocument())
        return;
    Map &map = *mActive->map;
    if (map.layers.size() >= MostLayers)
        return refuse(40);
    const Layer::Type layerType = type == "tile" ? Layer::TileLayerType : Layer::ObjectGroupType;
    push(new AddLayer(map, createLayer(map, layerType, copied(name))));
}

void Editor::doObject(LineReader &reader)
{
    std::string_view word;
    if (!reader.readWord(word))
        return refuse(4);
    if (word == "add")
        return addObject(reader);
    if (word == "move" || word == "move+")
        return moveObject(reader, word.size() == 5);
    refuse(4);
}

void Editor::addObject(LineReader &reader)
{
    static const QJsonObject others = {{"rotation", 0}, {"type", ""}};
    quint32 layerId, width, height;
    int x, y;
    std::string_view name;
    if (!reader.readNumber(layerId) || !reader.readCoordinate(x) || !reader.readCoordinate(y)
        || !reader.readNumber(width) || !reader.readNumber(height) || !reader.readText(name))
        return refuse(4);
    if (!needDocument())
        return;
    Layer *const layer = layerOfType(layerId, Layer::ObjectGroupType);
    if (!layer)
        return;
    if (width > quint32(GreatestCoordinate) || height > quint32(GreatestCoordinate))
        return refuse(39);
    if (layer->objects.size() >= MostObjects)
        return refuse(40);
    auto object = std::make_unique<MapObject>();
    object->id = mActive->map->nextObjectId;
    object->x = x;
    object->y = y;
    object->width = int(width);
    object->height = int(height);
    object->name = copied(name);
    object->visible = true;
    object->others = others;
    push(new AddMapObject(*mActive, *layer, std::move(object)));
}

void Editor::moveObject(LineReader &reader, bool merges)
{
    quint32 id;
    int x, y;
    if (!reader.readNumber(id) || !reader.readCoordinate(x) || !reader.readCoordinate(y)
        || !reader.atEnd())
        return refuse(4);
    if (!needDocument())
        return;
    MapObject *const object = mActive->objectsById.value(id);
    if (!object)
        return refuse(34);
    push(new MoveMapObject(merges, *object, x, y));
}

// ---- properties

/* The properties of `map`, `layer:U` or `object:U`; else null, and whether it is spelled so. */
Properties *Editor::propertiesOf(std::string_view owner, bool &isSpelled, int &refusal) const
{
    refusal = 10;
    isSpelled = owner == "map";
    if (isSpelled)
        return mActive ? &mActive->map->properties : nullptr;
    const size_t mark = owner.find(':');
    const std::string_view kind = owner.substr(0, mark);
    if (mark == std::string_view::npos || (kind != "layer" && kind != "object"))
        return nullptr;
    /* The reader wants a space in front of a number: the mark is as good. */
    const std::string number = ' ' + std::string(owner.substr(mark + 1));
    LineReader reader(number.data(), number.data() + number.size());
    quint32 id;
    isSpelled = reader.readNumber(id) && reader.atEnd();
    if (!isSpelled || !mActive)
        return nullptr;
    refusal = kind == "layer" ? 30 : 34;
    if (kind == "layer") {
        Layer *const layer = mActive->map->layerById(id);
        return layer ? &layer->properties : nullptr;
    }
    MapObject *const object = mActive->objectsById.value(id);
    return object ? &object->properties : nullptr;
}

bool Editor::readValue(LineReader &reader, QByteArray &type, QJsonValue &value) const
{
    std::string_view word, text;
    int number;
    if (!reader.readWord(word))
        return false;
    if (word == "int") {
        type = QByteArrayLiteral("int");
        const bool isThere = reader.readCoordinate(number) && reader.atEnd();
        value = isThere ? QJsonValue(number) : QJsonValue();
        return isThere;
    }
    if (word == "string") {
        type = QByteArrayLiteral("string");
        const bool isThere = reader.readText(text);
        value = QString::fromUtf8(text.data(), qsizetype(text.size()));
        return isThere;
    }
    if (word == "bool") {
        type = QByteArrayLiteral("bool");
        const bool isThere = reader.readText(text);
        value = text == "true";
        return isThere && (text == "true" || text == "false");
    }
    return false;
}

void Editor::doProp(LineReader &reader)
{
    std::string_view word;
    if (!reader.readWord(word) || (word != "set" && word != "set+"))
        return refuse(4);
    setProperty(reader, word.size() == 4);
}

void Editor::setProperty(LineReader &reader, bool merges)
{
    std::string_view owner, key;
    QByteArray type;
    QJsonValue value;
    bool isSpelled = false;
    int refusal = 0;
    if (!reader.readWord(owner))
        return refuse(4);
    Properties *const properties = propertiesOf(owner, isSpelled, refusal);
    if (!isSpelled || !reader.readWord(key) || !LineReader::isText(key)
        || !readValue(reader, type, value))
        return refuse(4);
    if (!properties)
        return refuse(refusal);
    const QByteArray name = QByteArray::fromRawData(key.data(), qsizetype(key.size()));
    const bool isFull = properties->size() >= MostProperties;
    const auto hasName = [&](const Property &each) { return each.name == name; };
    if (isFull && std::none_of(properties->begin(), properties->end(), hasName))
        return refuse(40);
    push(new SetProperty(merges, *properties, name, type, value));
}
