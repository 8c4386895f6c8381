/* The cells that are selected, as spans in rows.
 *
 * SPDX-License-Identifier: MIT OR Apache-2.0
 * Copyright (c) 2026 the Roskevad authors */
#pragma once

#include <QtGlobal>

#include <vector>

/* A rectangle of cells, cut to the map. */
struct CellRect {
    int x = 0;
    int y = 0;
    int width = 0;
    int height = 0;
};

/* Columns of one row, from `first` up to `end` without it. */
struct Span {
    quint16 first;
    quint16 end;

    bool operator==(const Span &other) const { return first == other.first && end == other.end; }
};

enum class SelectMode { Replace, Add, Subtract, Intersect };

/* Selected cells. The spans of a row rise, and no two of them touch. */
class SelectedArea
{
public:
    explicit SelectedArea(int height = 0) : mRowStarts(size_t(height) + 1, 0) {}

    bool isEmpty() const { return mSpans.empty(); }
    const Span *rowBegin(int row) const { return mSpans.data() + mRowStarts[size_t(row)]; }
    const Span *rowEnd(int row) const { return mSpans.data() + mRowStarts[size_t(row) + 1]; }

    /* The first span of the row that ends behind the column. */
    const Span *spanFrom(int row, int column) const;

    /* This area and the rectangle, put together. */
    SelectedArea combined(SelectMode mode, const CellRect &rect) const;

    bool operator==(const SelectedArea &other) const
    {
        return mSpans == other.mSpans && mRowStarts == other.mRowStarts;
    }

private:
    int height() const { return int(mRowStarts.size()) - 1; }
    void appendRows(const SelectedArea &source, int from, int to);
    void endRow(int row) { mRowStarts[size_t(row) + 1] = quint32(mSpans.size()); }
    void appendUnited(const Span *at, const Span *end, Span added);
    void appendWithout(const Span *at, const Span *end, Span taken);
    void appendCommon(const Span *at, const Span *end, Span kept);
    void appendCombined(SelectMode mode, const SelectedArea &source, int row, Span span);

    std::vector<Span> mSpans;
    /* For each row where its spans begin, and at last their number. */
    std::vector<quint32> mRowStarts;
};
