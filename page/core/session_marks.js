// SPDX-License-Identifier: MIT OR Apache-2.0
// What a session says at its front, as comments: for which edits the program is to be started that plays it.
import { isForAllEdits } from "./line_kinds.js";

const ALL_EDITS = "# all edits, all maps";

export const marksOf = lines => (lines.some(isForAllEdits) ? [ALL_EDITS] : []);
