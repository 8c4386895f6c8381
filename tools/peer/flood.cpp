/* The flood of a fill, row by row: what is written shows where it has been.
 *
 * SPDX-License-Identifier: MIT OR Apache-2.0
 * Copyright (c) 2026 the Roskevad authors */
#include "flood.h"

#include <algorithm>

namespace {

/* A part of a row that is to be looked at, below or above a run that was written. */
struct Part {
    int row;
    int first;
    int end;
    int step; /* from the run's row to this one */
};

class Flood
{
public:
    Flood(const Map &map, const SelectedArea &area, Layer &layer, Cell before, Cell after)
        : mMap(map), mArea(area), mCells(layer.cells.data()), mBefore(before), mAfter(after)
    {
    }

    std::vector<CellRun> run(int x, int y)
    {
        mParts.push_back({y, x, x + 1, 1});
        while (!mParts.empty()) {
            const Part part = mParts.back();
            mParts.pop_back();
            lookAt(part);
        }
        return std::move(mRuns);
    }

private:
    /* The columns around this one that may be changed; none if it may not. */
    Span columnsAround(int row, int column) const
    {
        if (mArea.isEmpty())
            return {0, quint16(mMap.width)};
        const Span *const span = mArea.spanFrom(row, column);
        const bool isInside = span != mArea.rowEnd(row) && span->first <= column;
        return isInside ? *span : Span{0, 0};
    }

    void lookAt(const Part &part)
    {
        Cell *const row = mCells + mMap.placeOf(0, part.row);
        for (int x = part.first; x < part.end; ++x) {
            if (row[x] != mBefore)
                continue;
            const Span columns = columnsAround(part.row, x);
            if (columns.end == 0)
                continue;
            int first = x;
            while (first > columns.first && row[first - 1] == mBefore)
                --first;
            int end = x + 1;
            while (end < columns.end && row[end] == mBefore)
                ++end;
            write(part, row, first, end);
            x = end;
        }
    }

    void write(const Part &part, Cell *row, int first, int end)
    {
        std::fill(row + first, row + end, mAfter);
        mRuns.push_back({quint16(part.row), quint16(first), quint16(end - first)});
        push(part.row + part.step, first, end, part.step);
        /* Of the row that it came from, only what is left and right of the part is new. */
        const bool isStart = mRuns.size() == 1;
        push(part.row - part.step, first, isStart ? end : part.first - 1, -part.step);
        if (!isStart)
            push(part.row - part.step, part.end + 1, end, -part.step);
    }

    void push(int row, int first, int end, int step)
    {
        if (row >= 0 && row < mMap.height && first < end)
            mParts.push_back({row, first, end, step});
    }

    const Map &mMap;
    const SelectedArea &mArea;
    Cell *const mCells;
    const Cell mBefore;
    const Cell mAfter;
    std::vector<Part> mParts;
    std::vector<CellRun> mRuns;
};

} // namespace

std::vector<CellRun> flood(const Map &map, const SelectedArea &area, Layer &layer, int x, int y,
                           Cell cell)
{
    const Cell before = layer.cells[map.placeOf(x, y)];
    if (before == cell)
        return {};
    std::vector<CellRun> runs = Flood(map, area, layer, before, cell).run(x, y);
    runs.shrink_to_fit();
    return runs;
}
