/* Reads and writes Tiled's JSON maps by Qt's QJsonDocument.
 *
 * SPDX-License-Identifier: MIT OR Apache-2.0
 * Copyright (c) 2026 the Roskevad authors */
#pragma once

#include "map.h"

/* The map, or null and the code of a refusal. */
std::unique_ptr<Map> readMap(const QByteArray &bytes, int &refusal);

/* Compact JSON. The members of each object are in the order of their names. */
QByteArray writeMap(const Map &map);
