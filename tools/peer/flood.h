/* The flood of a fill.
 *
 * SPDX-License-Identifier: MIT OR Apache-2.0
 * Copyright (c) 2026 the Roskevad authors */
#pragma once

#include "commands.h"

/* Writes the value into the cells joined to (x, y) that have its value and may be changed, and
 * answers their runs. Nothing is done if the cell has that value already, or may not be changed. */
std::vector<CellRun> flood(const Map &map, const SelectedArea &area, Layer &layer, int x, int y,
                           Cell cell);
