/* The lines about documents and their history.
 *
 * SPDX-License-Identifier: MIT OR Apache-2.0
 * Copyright (c) 2026 the Roskevad authors */
#include "editor.h"

#include "jsonmapformat.h"

#include <QFile>
#include <QSaveFile>
#include <QStringView>

namespace {

constexpr size_t LongestLine = 65535;
constexpr size_t LongestDocumentName = 64;
constexpr size_t LongestFileName = 100;
constexpr int MostOpenMacros = 64;
constexpr quint32 GreatestLimit = 1000000;

const char *wordsOf(int code)
{
    static const QHash<int, const char *> words = {
        {1, "line too long"},          {2, "not UTF-8"},
        {3, "unknown command"},        {4, "bad word"},
        {10, "no active document"},    {11, "name taken"},
        {12, "no such document"},      {13, "unsaved changes"},
        {20, "macro open"},            {21, "nothing to undo"},
        {22, "nothing to redo"},       {23, "no macro open"},
        {24, "too deep"},              {25, "stack not empty"},
        {30, "no such layer"},         {31, "layer of another kind"},
        {32, "outside the map"},       {33, "unknown tile"},
        {34, "no such object"},        {39, "out of range"},
        {40, "too many"},              {50, "no such file"},
        {51, "store failed"},          {60, "not JSON"},
        {62, "member missing"},        {63, "member of another kind"},
        {64, "infinite"},              {65, "compressed"},
        {66, "bad data"},              {68, "over a limit"},
        {69, "not a map"},
    };
    return words.value(code);
}

/* The bytes where they stand; only for looking something up. */
QByteArray lent(std::string_view text)
{
    return QByteArray::fromRawData(text.data(), qsizetype(text.size()));
}

QByteArray copied(std::string_view text)
{
    return QByteArray(text.data(), qsizetype(text.size()));
}

bool isUtf8(std::string_view text)
{
    quint64 signs = 0;
    size_t at = 0;
    for (quint64 eight; at + sizeof eight <= text.size(); at += sizeof eight) {
        memcpy(&eight, text.data() + at, sizeof eight);
        signs |= eight;
    }
    for (; at < text.size(); ++at)
        signs |= uchar(text[at]);
    return !(signs & 0x8080808080808080u)
           || QUtf8StringView(text.data(), qsizetype(text.size())).isValidUtf8();
}

} // namespace

Editor::Editor(const QString &folder, int undoLimit) : mFolder(folder), mUndoLimit(undoLimit) {}

const std::vector<Editor::Command> &Editor::commandsBy(char letter)
{
    static const auto table = [] {
        const Command commands[] = {
            {"stamp", &Editor::doStamp},       {"stamp+", &Editor::doStampPlus},
            {"status", &Editor::doStatus},     {"select", &Editor::doSelect},
            {"save", &Editor::doSave},         {"show", &Editor::doShow},
            {"undo", &Editor::doUndo},         {"undotext", &Editor::doUndoText},
            {"use", &Editor::doUse},           {"redo", &Editor::doRedo},
            {"redotext", &Editor::doRedoText}, {"tile", &Editor::doTile},
            {"text", &Editor::doText},         {"fill", &Editor::doFill},
            {"erase", &Editor::doErase},       {"erase+", &Editor::doErasePlus},
            {"end", &Editor::doEnd},           {"begin", &Editor::doBegin},
            {"object", &Editor::doObject},     {"open", &Editor::doOpen},
            {"prop", &Editor::doProp},         {"goto", &Editor::doGoto},
            {"layer", &Editor::doLayer},       {"limit", &Editor::doLimit},
            {"list", &Editor::doList},         {"new", &Editor::doNew},
            {"clean", &Editor::doClean},       {"close", &Editor::doClose},
            {"clear", &Editor::doClear},       {"dirty", &Editor::doDirty},
            {"discard", &Editor::doDiscard},
        };
        std::array<std::vector<Command>, 256> byLetter;
        for (const Command &each : commands)
            byLetter[uchar(each.word[0])].push_back(each);
        return byLetter;
    }();
    return table[uchar(letter)];
}

void Editor::doLine(std::string_view line)
{
    if (line.size() > LongestLine)
        return refuse(1);
    if (!isUtf8(line))
        return refuse(2);
    if (line.find_first_not_of(' ') == std::string_view::npos || line[0] == '#')
        return;
    size_t size = 0;
    while (size < line.size() && line[size] != ' ')
        ++size;
    for (const Command &each : commandsBy(line[0])) {
        if (each.word.size() == size && memcmp(each.word.data(), line.data(), size) == 0) {
            LineReader reader(line.data() + size, line.data() + line.size());
            return (this->*each.handler)(reader);
        }
    }
    refuse(3);
}

// ---- replies

void Editor::refuse(int code)
{
    mReplies.begin();
    mReplies.write("no ");
    mReplies.write(quint64(code));
    mReplies.write(' ');
    mReplies.writeText(wordsOf(code));
    mReplies.write('\n');
}

void Editor::replyState()
{
    mReplies.begin();
    if (!mActive) {
        mReplies.write("ok none clean\n");
        return;
    }
    const QUndoStack &stack = mActive->undoStack;
    mReplies.write("ok ");
    mReplies.write(quint64(stack.index()));
    mReplies.write('/');
    mReplies.write(quint64(stack.count()));
    if (stack.isClean())
        mReplies.write(" clean ");
    else
        mReplies.write(" dirty ");
    mReplies.write(quint64(mActive->openMacros));
    mReplies.write('\n');
}

void Editor::replyText(const QByteArray &text)
{
    mReplies.begin();
    mReplies.write("text");
    if (!text.isEmpty()) {
        mReplies.write(' ');
        mReplies.writeText({text.constData(), size_t(text.size())});
    }
    mReplies.write('\n');
}

/* The text of a command, or of a macro, which is the only other kind of entry. */
void Editor::replyTextOf(const QUndoCommand *command, bool isAction)
{
    if (const auto *known = dynamic_cast<const MapCommand *>(command))
        replyText(lent(isAction ? known->commandActionText() : known->commandText()));
    else if (command)
        replyText((isAction ? command->actionText() : command->text()).toUtf8());
    else
        replyText({});
}

bool Editor::needEnd(const LineReader &reader)
{
    if (!reader.atEnd())
        refuse(4);
    return reader.atEnd();
}

bool Editor::needDocument()
{
    if (!mActive)
        refuse(10);
    return mActive;
}

bool Editor::needNoMacro()
{
    if (mActive->openMacros > 0)
        refuse(20);
    return mActive->openMacros == 0;
}

void Editor::push(QUndoCommand *command)
{
    mActive->undoStack.push(command);
    replyState();
}

// ---- documents

MapDocument *Editor::find(std::string_view name) const
{
    return mDocumentsByName.value(lent(name));
}

void Editor::add(std::unique_ptr<MapDocument> document)
{
    mActive = document.get();
    mActive->undoStack.setUndoLimit(mUndoLimit);
    mDocumentsByName.insert(mActive->name, mActive);
    mDocuments.push_back(std::move(document));
    replyState();
}

void Editor::doNew(LineReader &reader)
{
    std::string_view name, source;
    quint32 width, height, tileWidth, tileHeight;
    if (!reader.readName(name, LongestDocumentName) || !reader.readNumber(width)
        || !reader.readNumber(height) || !reader.readNumber(tileWidth)
        || !reader.readNumber(tileHeight) || !reader.readText(source))
        return refuse(4);
    if (find(name))
        return refuse(11);
    const bool isSize = width - 1 < 4096 && height - 1 < 4096 && width * height <= 1048576;
    if (!isSize || tileWidth - 1 >= 65535 || tileHeight - 1 >= 65535)
        return refuse(39);
    std::unique_ptr<Map> map = createMap(int(width), int(height), int(tileWidth), int(tileHeight),
                                         copied(source));
    add(std::make_unique<MapDocument>(copied(name), std::move(map)));
}

void Editor::doOpen(LineReader &reader)
{
    std::string_view name, fileName;
    if (!reader.readName(name, LongestDocumentName) || !reader.readName(fileName, LongestFileName)
        || !reader.atEnd())
        return refuse(4);
    if (find(name))
        return refuse(11);
    QFile file(mFolder + '/' + QString::fromUtf8(lent(fileName)));
    if (!file.exists())
        return refuse(50);
    if (!file.open(QIODevice::ReadOnly))
        return refuse(51);
    int refusal = 0;
    std::unique_ptr<Map> map = readMap(file.readAll(), refusal);
    if (!map)
        return refuse(refusal);
    add(std::make_unique<MapDocument>(copied(name), std::move(map)));
}

void Editor::doSave(LineReader &reader)
{
    std::string_view fileName;
    if (!reader.readName(fileName, LongestFileName) || !reader.atEnd())
        return refuse(4);
    if (!needDocument() || !needNoMacro())
        return;
    const QByteArray text = writeMap(*mActive->map);
    QSaveFile file(mFolder + '/' + QString::fromUtf8(lent(fileName)));
    if (!file.open(QIODevice::WriteOnly) || file.write(text) != text.size() || !file.commit())
        return refuse(51);
    mActive->undoStack.setClean();
    mReplies.begin();
    mReplies.write("saved ");
    mReplies.writeText(fileName);
    mReplies.write(' ');
    mReplies.write(quint64(text.size()));
    mReplies.write('\n');
}

void Editor::remove(std::string_view name, bool isDiscarded)
{
    MapDocument *const document = find(name);
    if (!document)
        return refuse(12);
    if (!isDiscarded && !document->undoStack.isClean())
        return refuse(13);
    mDocumentsByName.remove(document->name);
    if (mActive == document)
        mActive = nullptr;
    const auto isIt = [&](const auto &each) { return each.get() == document; };
    mDocuments.erase(std::find_if(mDocuments.begin(), mDocuments.end(), isIt));
    replyState();
}

void Editor::doClose(LineReader &reader)
{
    std::string_view name;
    if (!reader.readName(name, LongestDocumentName) || !reader.atEnd())
        return refuse(4);
    remove(name, false);
}

void Editor::doDiscard(LineReader &reader)
{
    std::string_view name;
    if (!reader.readName(name, LongestDocumentName) || !reader.atEnd())
        return refuse(4);
    remove(name, true);
}

void Editor::doUse(LineReader &reader)
{
    LineReader other = reader;
    std::string_view name;
    if (other.readWord(name) && name == "-" && other.atEnd()) {
        mActive = nullptr;
        return replyState();
    }
    if (!reader.readName(name, LongestDocumentName) || !reader.atEnd())
        return refuse(4);
    MapDocument *const document = find(name);
    if (!document)
        return refuse(12);
    mActive = document;
    replyState();
}

void Editor::doList(LineReader &reader)
{
    if (!needEnd(reader))
        return;
    mReplies.begin();
    mReplies.write("docs");
    for (const auto &document : mDocuments) {
        mReplies.begin();
        mReplies.write(' ');
        if (document.get() == mActive)
            mReplies.write('*');
        mReplies.writeText({document->name.constData(), size_t(document->name.size())});
    }
    mReplies.write('\n');
}

void Editor::doStatus(LineReader &reader)
{
    if (needEnd(reader))
        replyState();
}

// ---- history

void Editor::doUndo(LineReader &reader)
{
    if (!needDocumentAt(reader) || !needNoMacro())
        return;
    if (!mActive->undoStack.canUndo())
        return refuse(21);
    mActive->undoStack.undo();
    replyState();
}

void Editor::doRedo(LineReader &reader)
{
    if (!needDocumentAt(reader) || !needNoMacro())
        return;
    if (!mActive->undoStack.canRedo())
        return refuse(22);
    mActive->undoStack.redo();
    replyState();
}

void Editor::doGoto(LineReader &reader)
{
    quint32 index;
    if (!reader.readNumber(index) || !reader.atEnd())
        return refuse(4);
    if (!needDocument() || !needNoMacro())
        return;
    QUndoStack &stack = mActive->undoStack;
    stack.setIndex(int(std::min(index, quint32(stack.count()))));
    replyState();
}

void Editor::doUndoText(LineReader &reader)
{
    if (!needEnd(reader))
        return;
    const bool isThere = mActive && !mActive->openMacros && mActive->undoStack.index() > 0;
    const QUndoStack *const stack = isThere ? &mActive->undoStack : nullptr;
    replyTextOf(stack ? stack->command(stack->index() - 1) : nullptr, true);
}

void Editor::doRedoText(LineReader &reader)
{
    if (!needEnd(reader))
        return;
    const QUndoStack *const stack = mActive && !mActive->openMacros ? &mActive->undoStack : nullptr;
    replyTextOf(stack ? stack->command(stack->index()) : nullptr, true);
}

void Editor::doText(LineReader &reader)
{
    quint32 place;
    if (!reader.readNumber(place) || !reader.atEnd())
        return refuse(4);
    if (!needDocument())
        return;
    if (place >= quint32(mActive->undoStack.count()))
        return refuse(39);
    replyTextOf(mActive->undoStack.command(int(place)), false);
}

/* The stack divides a text at a newline, which no line has. */
void Editor::doBegin(LineReader &reader)
{
    std::string_view text;
    if (!reader.readText(text))
        return refuse(4);
    const size_t mark = text.find(" || ");
    const bool hasAction = mark != std::string_view::npos;
    if (hasAction && (mark == 0 || mark + 4 == text.size()))
        return refuse(4);
    if (!needDocument())
        return;
    if (mActive->openMacros == MostOpenMacros)
        return refuse(24);
    QString name = QString::fromUtf8(lent(text.substr(0, mark)));
    if (hasAction)
        name += '\n' + QString::fromUtf8(lent(text.substr(mark + 4)));
    mActive->undoStack.beginMacro(name);
    ++mActive->openMacros;
    replyState();
}

void Editor::doEnd(LineReader &reader)
{
    if (!needDocumentAt(reader))
        return;
    if (mActive->openMacros == 0)
        return refuse(23);
    mActive->undoStack.endMacro();
    --mActive->openMacros;
    replyState();
}

void Editor::doClean(LineReader &reader)
{
    if (!needDocumentAt(reader) || !needNoMacro())
        return;
    mActive->undoStack.setClean();
    replyState();
}

void Editor::doDirty(LineReader &reader)
{
    if (!needDocumentAt(reader))
        return;
    mActive->undoStack.resetClean();
    replyState();
}

void Editor::doClear(LineReader &reader)
{
    if (!needDocumentAt(reader))
        return;
    mActive->undoStack.clear();
    mActive->undoStack.setClean(); /* a stack without steps stays as it is when it is cleared */
    mActive->openMacros = 0;
    replyState();
}

void Editor::doLimit(LineReader &reader)
{
    quint32 limit;
    if (!reader.readNumber(limit) || !reader.atEnd())
        return refuse(4);
    if (!needDocument())
        return;
    if (mActive->undoStack.count() > 0)
        return refuse(25);
    if (limit > GreatestLimit)
        return refuse(39);
    mActive->undoStack.setUndoLimit(int(limit));
    replyState();
}

void Editor::doShow(LineReader &reader)
{
    if (!needDocumentAt(reader))
        return;
    const QByteArray text = writeMap(*mActive->map);
    mReplies.begin();
    mReplies.write("map ");
    mReplies.writeText({text.constData(), size_t(text.size())});
    mReplies.write('\n');
}
