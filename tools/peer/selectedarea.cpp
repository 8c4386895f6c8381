/* The cells that are selected: unions, differences and intersections with rectangles.
 *
 * SPDX-License-Identifier: MIT OR Apache-2.0
 * Copyright (c) 2026 the Roskevad authors */
#include "selectedarea.h"

#include <algorithm>

const Span *SelectedArea::spanFrom(int row, int column) const
{
    return std::upper_bound(rowBegin(row), rowEnd(row), column,
                            [](int wanted, const Span &span) { return wanted < span.end; });
}

/* Appends the rows from `from` up to `to`, as they are in the source. */
void SelectedArea::appendRows(const SelectedArea &source, int from, int to)
{
    if (from >= to)
        return;
    const quint32 begin = source.mRowStarts[size_t(from)];
    const quint32 end = source.mRowStarts[size_t(to)];
    const quint32 shift = quint32(mSpans.size()) - begin;
    mSpans.insert(mSpans.end(), source.mSpans.begin() + begin, source.mSpans.begin() + end);
    for (int row = from; row < to; ++row)
        mRowStarts[size_t(row) + 1] = source.mRowStarts[size_t(row) + 1] + shift;
}

void SelectedArea::appendUnited(const Span *at, const Span *end, Span added)
{
    const Span *const rest = std::lower_bound(
        at, end, added.first, [](const Span &span, quint16 first) { return span.end < first; });
    mSpans.insert(mSpans.end(), at, rest);
    for (at = rest; at != end && at->first <= added.end; ++at) {
        added.first = std::min(added.first, at->first);
        added.end = std::max(added.end, at->end);
    }
    mSpans.push_back(added);
    mSpans.insert(mSpans.end(), at, end);
}

void SelectedArea::appendWithout(const Span *at, const Span *end, Span taken)
{
    const Span *const rest = std::upper_bound(
        at, end, taken.first, [](quint16 first, const Span &span) { return first < span.end; });
    mSpans.insert(mSpans.end(), at, rest);
    for (at = rest; at != end && at->first < taken.end; ++at) {
        if (at->first < taken.first)
            mSpans.push_back({at->first, taken.first});
        if (at->end > taken.end)
            mSpans.push_back({taken.end, at->end});
    }
    mSpans.insert(mSpans.end(), at, end);
}

void SelectedArea::appendCommon(const Span *at, const Span *end, Span kept)
{
    at = std::upper_bound(at, end, kept.first,
                          [](quint16 first, const Span &span) { return first < span.end; });
    for (; at != end && at->first < kept.end; ++at)
        mSpans.push_back({std::max(at->first, kept.first), std::min(at->end, kept.end)});
}

void SelectedArea::appendCombined(SelectMode mode, const SelectedArea &source, int row, Span span)
{
    const Span *const begin = source.rowBegin(row);
    const Span *const end = source.rowEnd(row);
    switch (mode) {
    case SelectMode::Replace: mSpans.push_back(span); break;
    case SelectMode::Add: appendUnited(begin, end, span); break;
    case SelectMode::Subtract: appendWithout(begin, end, span); break;
    case SelectMode::Intersect: appendCommon(begin, end, span); break;
    }
    endRow(row);
}

SelectedArea SelectedArea::combined(SelectMode mode, const CellRect &rect) const
{
    const bool keepsOthers = mode == SelectMode::Add || mode == SelectMode::Subtract;
    const bool hasCells = rect.width > 0 && rect.height > 0;
    if (!hasCells)
        return keepsOthers ? *this : SelectedArea(height());

    SelectedArea result(height());
    result.mSpans.reserve((mode == SelectMode::Replace ? 0 : mSpans.size()) + size_t(rect.height));
    const Span span{quint16(rect.x), quint16(rect.x + rect.width)};
    if (keepsOthers)
        result.appendRows(*this, 0, rect.y);
    for (int row = rect.y; row < rect.y + rect.height; ++row)
        result.appendCombined(mode, *this, row, span);
    if (keepsOthers)
        result.appendRows(*this, rect.y + rect.height, height());
    else
        std::fill(result.mRowStarts.begin() + rect.y + rect.height, result.mRowStarts.end(),
                  quint32(result.mSpans.size()));
    if (result.mSpans.capacity() > result.mSpans.size() + result.mSpans.size() / 8)
        result.mSpans.shrink_to_fit();
    return result;
}
