// SPDX-License-Identifier: MIT OR Apache-2.0
// Where an infinite map lies on its plane.
import { noteOf, originOf } from "../../js/tiled_maps.js";

// A map that is not infinite.
export const NO_PLANE = { corner: [0, 0], moved: [0, 0] };

// At which column and row of its plane the corner of an editor's active map stands, and by how many pixels objects lie farther on its plane than
// the editor names them.
export function planeOf(editor) {
  const note = noteOf(editor._parsed("map_head") ?? {});
  return { corner: originOf(note), moved: [note.movedx ?? 0, note.movedy ?? 0] };
}
