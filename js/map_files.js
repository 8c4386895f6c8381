// SPDX-License-Identifier: MIT OR Apache-2.0
// Maps as the bytes of files: how they are opened, and how they are saved.
import { Refused, refusedCall } from "./faults.js";
import { kindNumber, kindOf } from "./file_kinds.js";
import { laidOut } from "./layouts.js";
import { faultOfFile, isOfMap } from "./map_faults.js";
import { bytesOf, textOf } from "./module.js";
import { hasAside } from "./tiled_maps.js";

// The largest outline for which there is room before its size is known.
const LONGEST_GUESS = 16 * 1024 * 1024;
const STORE_FAILED = 51;
const NOT_JSON = 60;
const NO_PATH = "a text is a map itself, and no path of a file: give the bytes of the file";

/** Opens a document with any map, and gives the reply to `open`. Throws Refused with the call. */
export async function openedMap(editor, name, data, call) {
  editor._open();
  editor._events.refuse(call);
  // The document keeps them, and the caller may change his own.
  const given = typeof data === "string" ? bytesOf(data) : bytesOf(data).slice();
  const text = made(editor, "set_aside", given, call);
  try {
    const reply = openBytes(editor, name, text, call);
    editor._handle(name)._keepSource(given);
    return reply;
  } catch (fault) {
    if (fault instanceof Refused && isOfMap(fault.code)) {
      const { code, ...more } = faultOfFile(editor._module, fault.code, given);
      throw refusedCall(code, call, code === NOT_JSON && mayBePath(data) ? { ...more, why: NO_PATH } : more);
    }
    throw fault;
  }
}

// Whether a text may be the path of a file: it has no object of JSON in it, which each map is.
function mayBePath(data) {
  return typeof data === "string" && !data.includes("{");
}

/**
 * The active document's map as the bytes of a file, in a layout, or in that of its source; of a kind, or of that of its
 * source. Its index is the clean one at once. Throws Refused with the call; RangeError for a layout of XML.
 */
export async function savedMap(editor, call, { layout = null, kind = null } = {}) {
  editor._events.refuse(call);
  if (editor._waits()) {
    throw refusedCall(20, call);
  }
  const shown = editor._shown(call);
  const name = editor._activeName();
  const document = editor._handle(name);
  const { _source: source } = document;
  const wanted = kind ?? kindOf(source);
  if (wanted === "tmx" && layout !== null) {
    throw new RangeError(`"${layout}" is a layout of JSON, and this is saved as XML`);
  }
  const isOfXml = wanted === "tmx" || kindOf(source) === "tmx";
  const isAside = isOfXml || hasAside(shown);
  const text = isOfXml ? putBackAs(editor, shown, source, wanted, call) : isAside ? putBack(editor, shown, source, call) : shown;
  editor._replyTo("clean", call);
  try {
    // What is laid out as its source has the new layers packed as those of the source.
    const like = isAside ? text : laidOut(editor._module, text, { layout: null, source });
    const bytes = layout === null ? like : laidOut(editor._module, like, { layout, source });
    document._keepSource(bytes.slice());
    return bytes;
  } catch (fault) {
    markDirty(editor, name);
    throw fault;
  }
}

// The text of a map in which what was set aside is put back, laid out as its source is, if there is memory for that.
function putBack(editor, text, source, call) {
  return editor._module.putBackLike(text, source) ?? made(editor, "put_back", text, call);
}

// The same as a file of a kind, where that or the source is in XML.
function putBackAs(editor, text, source, kind, call) {
  const { text: made, why } = editor._module.putBackAs(text, source, kindNumber(kind));
  if (why !== null) {
    throw refusedCall(STORE_FAILED, call, { why });
  }
  return made;
}

// What a call of the library makes of the text of a map; the same bytes where it makes none.
function made(editor, name, bytes, call) {
  const { text, why } = editor._module.made(name, bytes);
  if (why !== null) {
    const told = kindOf(bytes) === "tmx" ? faultOfFile(editor._module, STORE_FAILED, bytes) : {};
    throw refusedCall(STORE_FAILED, call, { why: told.why ?? why, placeInMap: told.placeInMap ?? null });
  }
  return text ?? bytes;
}

// Opens bytes, which stand among the files under a free name meanwhile.
function openBytes(editor, document, bytes, call) {
  const taken = new Set(editor.files());
  const names = Array.from({ length: taken.size + 1 }, (_, at) => `roskevad${at}.tmj`);
  const name = names.find((each) => !taken.has(each));
  editor.putFile(name, bytes);
  editor._expectOutline(Math.min(bytes.length, LONGEST_GUESS));
  try {
    return textOf(editor._replyTo(`open ${document} ${name}`, call));
  } finally {
    if (!editor._module.isBroken) {
      editor.removeFile(name);
    }
  }
}

// Leaves no index of a document clean, if it is still there.
function markDirty(editor, document) {
  if (!editor._isThere) {
    return;
  }
  editor._restored(() => {
    editor._said(`use ${document}`, true);
    if (editor._refusal === 0) {
      editor._said("dirty", true);
    }
  });
}
