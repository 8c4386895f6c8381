/* Reads the words of a session line where they stand, without a copy.
 *
 * SPDX-License-Identifier: MIT OR Apache-2.0
 * Copyright (c) 2026 the Roskevad authors */
#pragma once

#include <QtGlobal>

#include <string_view>
#include <vector>

constexpr int LeastCoordinate = -1000000000;
constexpr int GreatestCoordinate = 1000000000;

/* Each call reads what stands behind the next space. It answers whether that was there. */
class LineReader
{
public:
    LineReader(const char *at, const char *end) : mAt(at), mEnd(end) {}

    bool atEnd() const { return mAt == mEnd; }

    bool readSpace()
    {
        if (mAt == mEnd || *mAt != ' ')
            return false;
        ++mAt;
        return true;
    }

    bool readNumber(quint32 &number) { return readSpace() && readDigits(number); }

    bool readCoordinate(int &number)
    {
        if (!readSpace())
            return false;
        const bool isNegative = mAt != mEnd && *mAt == '-';
        mAt += isNegative;
        quint32 digits;
        if (!readDigits(digits) || digits > quint32(GreatestCoordinate) || (isNegative && !digits))
            return false;
        number = isNegative ? -int(digits) : int(digits);
        return true;
    }

    /* Numbers joined by commas. */
    bool readNumbers(std::vector<quint32> &numbers)
    {
        numbers.clear();
        if (!readSpace())
            return false;
        quint32 number;
        while (readDigits(number)) {
            numbers.push_back(number);
            if (mAt == mEnd || *mAt != ',')
                return mAt == mEnd;
            ++mAt;
        }
        return false;
    }

    bool readWord(std::string_view &word)
    {
        if (!readSpace())
            return false;
        const char *const begin = mAt;
        while (mAt != mEnd && *mAt != ' ')
            ++mAt;
        word = {begin, size_t(mAt - begin)};
        return !word.empty();
    }

    /* A word of the characters of names. */
    bool readName(std::string_view &name, size_t most)
    {
        if (!readWord(name) || name.size() > most || name[0] == '.' || name[0] == '-')
            return false;
        for (const char each : name) {
            const bool isLetter = (each >= 'a' && each <= 'z') || (each >= 'A' && each <= 'Z');
            const bool isDigit = each >= '0' && each <= '9';
            if (!isLetter && !isDigit && each != '_' && each != '.' && each != '-')
                return false;
        }
        return true;
    }

    /* The rest of the line. */
    bool readText(std::string_view &text)
    {
        if (!readSpace())
            return false;
        text = {mAt, size_t(mEnd - mAt)};
        mAt = mEnd;
        return isText(text);
    }

    static bool isText(std::string_view text)
    {
        for (const char each : text) {
            if (uchar(each) < 32 || each == 127)
                return false;
        }
        return !text.empty() && text.size() <= 200;
    }

private:
    bool readDigits(quint32 &number)
    {
        const char *const begin = mAt;
        quint64 value = 0;
        while (mAt != mEnd && uchar(*mAt - '0') < 10 && mAt - begin < 11)
            value = value * 10 + quint64(*mAt++ - '0');
        number = quint32(value);
        const bool hasLeadingZero = mAt - begin > 1 && *begin == '0';
        return mAt != begin && value <= 0xffffffffu && !hasLeadingZero;
    }

    const char *mAt;
    const char *const mEnd;
};
