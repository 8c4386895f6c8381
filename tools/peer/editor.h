/* Does session lines on the open documents, and writes the reply to each.
 *
 * SPDX-License-Identifier: MIT OR Apache-2.0
 * Copyright (c) 2026 the Roskevad authors */
#pragma once

#include "commands.h"
#include "linereader.h"
#include "map.h"
#include "replywriter.h"

#include <QHash>
#include <QString>

#include <algorithm>
#include <array>
#include <memory>
#include <string>
#include <string_view>
#include <vector>

class Editor
{
public:
    Editor(const QString &folder, int undoLimit);

    /* A line without its newline. A blank line and a comment have no reply. */
    void doLine(std::string_view line);

    void refuse(int code);
    void flush() { mReplies.flush(); }

private:
    using Handler = void (Editor::*)(LineReader &);

    struct Command {
        std::string_view word;
        Handler handler;
    };

    static const std::vector<Command> &commandsBy(char letter);

    /* Ends a line: each writes its reply and answers whether the line may go on. */
    bool needEnd(const LineReader &reader);
    bool needDocument();
    bool needNoMacro();
    bool needDocumentAt(const LineReader &reader) { return needEnd(reader) && needDocument(); }

    void replyState();
    void replyText(const QByteArray &text);
    void replyTextOf(const QUndoCommand *command, bool isAction);
    void push(QUndoCommand *command);

    void doNew(LineReader &reader);
    void doOpen(LineReader &reader);
    void doSave(LineReader &reader);
    void doClose(LineReader &reader);
    void doDiscard(LineReader &reader);
    void doUse(LineReader &reader);
    void doList(LineReader &reader);
    void doStatus(LineReader &reader);
    void doUndo(LineReader &reader);
    void doRedo(LineReader &reader);
    void doGoto(LineReader &reader);
    void doUndoText(LineReader &reader);
    void doRedoText(LineReader &reader);
    void doText(LineReader &reader);
    void doBegin(LineReader &reader);
    void doEnd(LineReader &reader);
    void doClean(LineReader &reader);
    void doDirty(LineReader &reader);
    void doClear(LineReader &reader);
    void doLimit(LineReader &reader);
    void doShow(LineReader &reader);
    void doTile(LineReader &reader);
    void doStamp(LineReader &reader) { stamp(reader, false); }
    void doStampPlus(LineReader &reader) { stamp(reader, true); }
    void doErase(LineReader &reader) { erase(reader, false); }
    void doErasePlus(LineReader &reader) { erase(reader, true); }
    void doFill(LineReader &reader);
    void doSelect(LineReader &reader);
    void doLayer(LineReader &reader);
    void doObject(LineReader &reader);
    void doProp(LineReader &reader);

    void stamp(LineReader &reader, bool merges);
    void erase(LineReader &reader, bool merges);
    void addObject(LineReader &reader);
    void moveObject(LineReader &reader, bool merges);
    void setProperty(LineReader &reader, bool merges);

    void remove(std::string_view name, bool isDiscarded);
    void add(std::unique_ptr<MapDocument> document);
    MapDocument *find(std::string_view name) const;
    Layer *layerOfType(quint32 id, Layer::Type type);
    bool isKnown(Cell cell) const;
    Properties *propertiesOf(std::string_view owner, bool &isSpelled, int &refusal) const;
    bool readValue(LineReader &reader, QByteArray &type, QJsonValue &value) const;
    template <typename Function> void forSpans(const CellRect &rect, Function function) const;
    CellRect cut(int x, int y, quint32 width, quint32 height) const;

    const QString mFolder;
    const int mUndoLimit;
    std::vector<std::unique_ptr<MapDocument>> mDocuments; /* in the order of opening */
    QHash<QByteArray, MapDocument *> mDocumentsByName;
    MapDocument *mActive = nullptr;
    std::vector<quint32> mNumbers; /* of the stamp that is read */
    ReplyWriter mReplies;
};
