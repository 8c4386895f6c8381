// SPDX-License-Identifier: MIT OR Apache-2.0
// Does runs of sessions on the module, in Node or in a page: the server gives each run, and takes what
// came of it.
//
//   node tests/module/run_sessions.mjs ADDRESS WAY
import { Editor, Module } from "../../js/roskevad.js";

const encoder = new TextEncoder();
const decoder = new TextDecoder();
const NEWLINE = 10;

// Parts by their names, as server.py packs them.
function packed(parts) {
  const head = encoder.encode(JSON.stringify(parts.map(([name, data]) => [name, data.length])));
  return new Blob([new Uint32Array([head.length]), head, ...parts.map(([, data]) => data)]);
}

function unpacked(bytes) {
  let start = 4 + new DataView(bytes.buffer).getUint32(0, true);
  const head = JSON.parse(decoder.decode(bytes.subarray(4, start)));
  return new Map(
    head.map(([name, size]) => {
      start += size;
      return [name, bytes.subarray(start - size, start)];
    }),
  );
}

function* linesOf(session) {
  let from = 0;
  for (let at = session.indexOf(NEWLINE); at >= 0; at = session.indexOf(NEWLINE, from)) {
    yield session.subarray(from, at);
    from = at + 1;
  }
  if (from < session.length) {
    yield session.subarray(from);
  }
}

// The replies to a session, each with a newline, by one call for each line.
function stepped(editor, session) {
  const pieces = [];
  const newline = new Uint8Array([NEWLINE]);
  for (const line of linesOf(session)) {
    const reply = editor.stepBytes(line);
    if (reply !== null) {
      pieces.push(reply, newline);
    }
  }
  return joined(pieces);
}

function joined(pieces) {
  const all = new Uint8Array(pieces.reduce((size, piece) => size + piece.length, 0));
  let at = 0;
  for (const piece of pieces) {
    all.set(piece, at);
    at += piece.length;
  }
  return all;
}

const WAYS = { step: stepped, lines: (editor, session) => editor.runBytes(session) };

// What comes of a run: its replies, and its files.
function outcomeOf(module, run, way) {
  const editor = new Editor(module, { limit: Number(decoder.decode(run.get("limit"))) });
  try {
    for (const [name, data] of run) {
      if (name.startsWith("/")) {
        editor.putFile(name.slice(1), data);
      }
    }
    const replies = WAYS[way](editor, run.get("session"));
    return [["replies", replies], ...editor.files().map((name) => [`/${name}`, editor.file(name)])];
  } finally {
    editor.close();
  }
}

/** Does all runs of a server in one module. */
export async function runAll(address, way) {
  const module = await Module.load();
  const count = await (await fetch(`${address}/runs`)).json();
  for (let number = 0; number < count; number++) {
    const answer = await fetch(`${address}/runs/${number}`);
    const run = unpacked(new Uint8Array(await answer.arrayBuffer()));
    const body = packed(outcomeOf(module, run, way));
    await fetch(`${address}/runs/${number}`, { method: "POST", body });
  }
}

if (typeof process === "object") {
  await runAll(process.argv[2], process.argv[3]);
}
