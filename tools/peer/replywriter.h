/* Gathers replies in one buffer, which goes out when it is full or when it is flushed.
 *
 * SPDX-License-Identifier: MIT OR Apache-2.0
 * Copyright (c) 2026 the Roskevad authors */
#pragma once

#include <QByteArray>

#include <charconv>
#include <cstdlib>
#include <cstring>
#include <memory>
#include <string_view>

#include <unistd.h>

class ReplyWriter
{
public:
    /* Room for a reply is asked for once; only texts may be longer than that. */
    void begin()
    {
        if (mEnd - mAt < LongestReply)
            flush();
    }

    void write(char sign) { *mAt++ = sign; }

    template <size_t Size> void write(const char (&text)[Size])
    {
        memcpy(mAt, text, Size - 1);
        mAt += Size - 1;
    }

    void write(quint64 number) { mAt = std::to_chars(mAt, mEnd, number).ptr; }

    void writeText(std::string_view text)
    {
        const bool isLong = text.size() > Size / 2;
        if (isLong || size_t(mEnd - mAt) < text.size() + LongestReply)
            flush();
        if (isLong) {
            writeOut(text.data(), text.size());
            return;
        }
        memcpy(mAt, text.data(), text.size());
        mAt += text.size();
    }

    void flush()
    {
        writeOut(mBuffer.get(), size_t(mAt - mBuffer.get()));
        mAt = mBuffer.get();
    }

private:
    static constexpr size_t Size = 1 << 16;
    static constexpr ptrdiff_t LongestReply = 512;

    static void writeOut(const char *bytes, size_t size)
    {
        while (size > 0) {
            const ssize_t written = ::write(STDOUT_FILENO, bytes, size);
            if (written <= 0)
                exit(1);
            bytes += written;
            size -= size_t(written);
        }
    }

    const std::unique_ptr<char[]> mBuffer{new char[Size]};
    char *mAt = mBuffer.get();
    char *const mEnd = mBuffer.get() + Size;
};
