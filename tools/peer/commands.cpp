/* The commands of the undo stack: what they do, undo and merge.
 *
 * SPDX-License-Identifier: MIT OR Apache-2.0
 * Copyright (c) 2026 the Roskevad authors */
#include "commands.h"

#include <algorithm>

// ---- stamps and erases

PaintTileLayer::PaintTileLayer(CommandId id, bool merges, MapDocument &document, Layer &layer,
                               CellChanges &&changes)
    : mDocument(document), mLayer(layer), mChanges(std::move(changes)),
      mDiffering(int(mChanges.size())), mId(id), mMerges(merges)
{
    setObsolete(mChanges.isEmpty());
}

PaintTileLayer::~PaintTileLayer()
{
    if (mDocument.stroke == this)
        mDocument.stroke = nullptr;
}

const char *PaintTileLayer::commandActionText() const
{
    return mId == StampId ? "stamp tiles" : "erase tiles";
}

void PaintTileLayer::redo()
{
    Cell *const cells = mLayer.cells.data();
    for (const CellChange &change : std::as_const(mChanges))
        cells[change.place] = change.after;
}

void PaintTileLayer::undo()
{
    Cell *const cells = mLayer.cells.data();
    for (const CellChange &change : std::as_const(mChanges))
        cells[change.place] = change.before;
}

/* Notes for each of its cells where it stands in the list. */
void PaintTileLayer::becomeStroke()
{
    mDocument.stroke = this;
    mDocument.strokePlaces.resize(mLayer.cells.size());
    quint32 at = 0;
    for (const CellChange &change : std::as_const(mChanges))
        mDocument.strokePlaces[change.place] = at++;
}

/* Takes some steps for each cell of the newer command, however long the stroke is: a note that is
 * left of another stroke is known by the cell that stands there. */
bool PaintTileLayer::mergeWith(const QUndoCommand *other)
{
    const auto *newer = static_cast<const PaintTileLayer *>(other);
    if (!newer->mMerges || &newer->mLayer != &mLayer)
        return false;
    if (mDocument.stroke != this)
        becomeStroke();
    for (const CellChange &change : newer->mChanges) {
        quint32 &at = mDocument.strokePlaces[change.place];
        if (at < quint32(mChanges.size()) && mChanges[at].place == change.place) {
            CellChange &own = mChanges[at];
            mDiffering += int(own.before != change.after) - int(own.before != own.after);
            own.after = change.after;
        } else {
            at = quint32(mChanges.size());
            mChanges.append(change);
            ++mDiffering;
        }
    }
    setObsolete(mDiffering == 0);
    return true;
}

// ---- fills

FillTileLayer::FillTileLayer(const Map &map, Layer &layer, std::vector<CellRun> &&runs, Cell before,
                             Cell after)
    : mMap(map), mLayer(layer), mRuns(std::move(runs)), mBefore(before), mAfter(after)
{
    setObsolete(mRuns.empty());
}

void FillTileLayer::redo()
{
    if (!mIsWritten)
        write(mAfter);
    mIsWritten = false;
}

void FillTileLayer::write(Cell cell)
{
    for (const CellRun &run : mRuns) {
        Cell *at = mLayer.cells.data() + mMap.placeOf(run.first, run.row);
        Cell *const end = at + run.length;
        if (run.length < 16) {
            for (; at != end; ++at)
                *at = cell;
        } else {
            std::fill(at, end, cell);
        }
    }
}

// ---- selections

ChangeSelectedArea::ChangeSelectedArea(MapDocument &document, SelectedArea &&area)
    : mDocument(document), mArea(std::move(area))
{
    setObsolete(mArea == mDocument.selectedArea);
}

// ---- layers and objects

void AddLayer::redo()
{
    mMap.layers.push_back(std::move(mLayer));
    ++mMap.nextLayerId;
}

void AddLayer::undo()
{
    mLayer = std::move(mMap.layers.back());
    mMap.layers.pop_back();
    --mMap.nextLayerId;
}

AddMapObject::AddMapObject(MapDocument &document, Layer &layer, std::unique_ptr<MapObject> object)
    : mDocument(document), mLayer(layer), mObject(std::move(object))
{
}

void AddMapObject::redo()
{
    mDocument.objectsById.insert(quint32(mObject->id), mObject.get());
    mLayer.objects.push_back(std::move(mObject));
    ++mDocument.map->nextObjectId;
}

void AddMapObject::undo()
{
    mObject = std::move(mLayer.objects.back());
    mLayer.objects.pop_back();
    mDocument.objectsById.remove(quint32(mObject->id));
    --mDocument.map->nextObjectId;
}

MoveMapObject::MoveMapObject(bool merges, MapObject &object, int x, int y)
    : mObject(object), mX(x), mY(y), mMerges(merges)
{
    setObsolete(isEqual());
}

void MoveMapObject::redo()
{
    std::swap(mX, mObject.x);
    std::swap(mY, mObject.y);
}

/* The newer command has moved the object already, and this one holds the place before both. */
bool MoveMapObject::mergeWith(const QUndoCommand *other)
{
    const auto *newer = static_cast<const MoveMapObject *>(other);
    if (!newer->mMerges || &newer->mObject != &mObject)
        return false;
    setObsolete(isEqual());
    return true;
}

// ---- properties

SetProperty::SetProperty(bool merges, Properties &properties, const QByteArray &name,
                         const QByteArray &type, const QJsonValue &value)
    : mProperties(properties), mType(type), mValue(value), mMerges(merges)
{
    const auto found = std::find_if(properties.begin(), properties.end(),
                                    [&](const Property &each) { return each.name == name; });
    mPlace = size_t(found - properties.begin());
    if (found == properties.end())
        mNewName = QByteArray(name.constData(), name.size());
    else
        setObsolete(isEqual());
}

bool SetProperty::isEqual() const
{
    const Property &property = mProperties[mPlace];
    return mType == property.type && mValue == property.value;
}

void SetProperty::exchange()
{
    Property &property = mProperties[mPlace];
    mType.swap(property.type);
    mValue.swap(property.value);
}

void SetProperty::redo()
{
    if (!mNewName.isNull())
        mProperties.push_back({mNewName, {}, {}, {}});
    exchange();
}

void SetProperty::undo()
{
    exchange();
    if (!mNewName.isNull())
        mProperties.pop_back();
}

bool SetProperty::mergeWith(const QUndoCommand *other)
{
    const auto *newer = static_cast<const SetProperty *>(other);
    const bool isSame = &newer->mProperties == &mProperties && newer->mPlace == mPlace;
    if (!newer->mMerges || !isSame)
        return false;
    setObsolete(mNewName.isNull() && isEqual());
    return true;
}
