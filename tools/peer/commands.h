/* The commands of the undo stack. Each holds what it changes, and nothing of the rest of the map.
 *
 * SPDX-License-Identifier: MIT OR Apache-2.0
 * Copyright (c) 2026 the Roskevad authors */
#pragma once

#include "map.h"

#include <QUndoCommand>
#include <QVarLengthArray>

/* A command whose two texts are known beforehand, so that no command has texts of its own. */
class MapCommand : public QUndoCommand
{
public:
    virtual const char *commandText() const = 0;
    virtual const char *commandActionText() const = 0;
};

enum CommandId { StampId = 1, EraseId = 2, MoveObjectId = 3, SetPropertyId = 4 };

struct CellChange {
    quint32 place;
    Cell before;
    Cell after;
};

using CellChanges = QVarLengthArray<CellChange, 1>;

/* A stamp or an erase: cells of one layer, each once, with what they were and become. */
class PaintTileLayer : public MapCommand
{
public:
    PaintTileLayer(CommandId id, bool merges, MapDocument &document, Layer &layer,
                   CellChanges &&changes);
    ~PaintTileLayer() override;

    int id() const override { return mId; }
    const char *commandText() const override { return mId == StampId ? "Stamp" : "Erase"; }
    const char *commandActionText() const override;
    void redo() override;
    void undo() override;
    bool mergeWith(const QUndoCommand *other) override;

private:
    void becomeStroke();

    MapDocument &mDocument;
    Layer &mLayer;
    CellChanges mChanges;
    int mDiffering; /* how many cells are after it what they were not before it */
    const CommandId mId;
    const bool mMerges;
};

/* Cells side by side in one row. */
struct CellRun {
    quint16 row;
    quint16 first;
    quint16 length;
};

/* A fill: runs of cells of one value, which get another one. The flood has written them already. */
class FillTileLayer : public MapCommand
{
public:
    FillTileLayer(const Map &map, Layer &layer, std::vector<CellRun> &&runs, Cell before,
                  Cell after);

    const char *commandText() const override { return "Fill"; }
    const char *commandActionText() const override { return "fill area"; }
    void redo() override;
    void undo() override { write(mBefore); }

private:
    void write(Cell cell);

    const Map &mMap;
    Layer &mLayer;
    std::vector<CellRun> mRuns;
    const Cell mBefore;
    const Cell mAfter;
    bool mIsWritten = true;
};

/* A selection; it holds the one that the document has not. */
class ChangeSelectedArea : public MapCommand
{
public:
    ChangeSelectedArea(MapDocument &document, SelectedArea &&area);

    const char *commandText() const override { return "Select"; }
    const char *commandActionText() const override { return "change selection"; }
    void redo() override { std::swap(mArea, mDocument.selectedArea); }
    void undo() override { redo(); }

private:
    MapDocument &mDocument;
    SelectedArea mArea;
};

class AddLayer : public MapCommand
{
public:
    AddLayer(Map &map, std::unique_ptr<Layer> layer) : mMap(map), mLayer(std::move(layer)) {}

    const char *commandText() const override { return "Add Layer"; }
    const char *commandActionText() const override { return "add layer"; }
    void redo() override;
    void undo() override;

private:
    Map &mMap;
    std::unique_ptr<Layer> mLayer; /* while it is not in the map */
};

class AddMapObject : public MapCommand
{
public:
    AddMapObject(MapDocument &document, Layer &layer, std::unique_ptr<MapObject> object);

    const char *commandText() const override { return "Add Object"; }
    const char *commandActionText() const override { return "add object"; }
    void redo() override;
    void undo() override;

private:
    MapDocument &mDocument;
    Layer &mLayer;
    std::unique_ptr<MapObject> mObject; /* while it is not in the layer */
};

/* A move; it holds the place that the object has not. */
class MoveMapObject : public MapCommand
{
public:
    MoveMapObject(bool merges, MapObject &object, int x, int y);

    int id() const override { return MoveObjectId; }
    const char *commandText() const override { return "Move Object"; }
    const char *commandActionText() const override { return "move object"; }
    void redo() override;
    void undo() override { redo(); }
    bool mergeWith(const QUndoCommand *other) override;

private:
    bool isEqual() const { return mX == mObject.x && mY == mObject.y; }

    MapObject &mObject;
    std::optional<int> mX, mY;
    const bool mMerges;
};

/* A property; it holds the type and value that the owner has not. */
class SetProperty : public MapCommand
{
public:
    SetProperty(bool merges, Properties &properties, const QByteArray &name, const QByteArray &type,
                const QJsonValue &value);

    int id() const override { return SetPropertyId; }
    const char *commandText() const override { return "Set Property"; }
    const char *commandActionText() const override { return "set property"; }
    void redo() override;
    void undo() override;
    bool mergeWith(const QUndoCommand *other) override;

private:
    bool isEqual() const;
    void exchange();

    Properties &mProperties;
    size_t mPlace;
    QByteArray mNewName; /* of a property that was not there; else null */
    QByteArray mType;
    QJsonValue mValue;
    const bool mMerges;
};
