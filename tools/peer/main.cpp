/* A map editor on Qt's undo stack: session lines in, reply lines out. Speed is measured beside it.
 *
 * SPDX-License-Identifier: MIT OR Apache-2.0
 * Copyright (c) 2026 the Roskevad authors */
#include "editor.h"

#include <cerrno>
#include <cstdio>
#include <cstdlib>
#include <cstring>

#include <unistd.h>

namespace {

/* Input in large blocks. A line is read where it stands; only what is left of one is moved. */
class Input
{
public:
    explicit Input(Editor &editor) : mEditor(editor), mBuffer(BlockSize) {}

    bool run()
    {
        for (;;) {
            if (mEnd == mBuffer.size())
                mBuffer.resize(2 * mBuffer.size());
            mEditor.flush();
            char *const end = mBuffer.data() + mEnd;
            const ssize_t count = ::read(STDIN_FILENO, end, mBuffer.size() - mEnd);
            if (count < 0 && errno == EINTR)
                continue;
            if (count <= 0) {
                if (mEnd > 0)
                    mEditor.doLine({mBuffer.data(), mEnd});
                mEditor.flush();
                return count == 0;
            }
            mEnd += size_t(count);
            doLines();
        }
    }

private:
    void doLines()
    {
        char *at = mBuffer.data();
        char *const end = at + mEnd;
        while (char *newline = static_cast<char *>(memchr(at, '\n', size_t(end - at)))) {
            mEditor.doLine({at, size_t(newline - at)});
            at = newline + 1;
        }
        mEnd = size_t(end - at);
        memmove(mBuffer.data(), at, mEnd);
    }

    static constexpr size_t BlockSize = 1 << 18;

    Editor &mEditor;
    std::vector<char> mBuffer;
    size_t mEnd = 0;
};

} // namespace

int main(int count, char **words)
{
    QString folder = ".";
    int limit = 0;
    for (int at = 1; at + 1 < count; at += 2) {
        if (strcmp(words[at], "--folder") == 0)
            folder = QString::fromLocal8Bit(words[at + 1]);
        else if (strcmp(words[at], "--limit") == 0)
            limit = atoi(words[at + 1]);
    }
    Editor editor(folder, limit);
    if (Input(editor).run())
        return 0;
    fputs("peer: read failed\n", stderr);
    return 1;
}
