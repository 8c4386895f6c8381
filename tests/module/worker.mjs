// SPDX-License-Identifier: MIT OR Apache-2.0
// An editor in a worker, of a browser or of Node.
import { Editor } from "../../js/roskevad.js";

const editor = await Editor.create();
const replies = ["new town 4 3 16 16 town.tsj", "stamp 1 0 0 1 5"].map((line) => editor.step(line));
editor.close();
const host = globalThis.postMessage ? globalThis : (await import("node:worker_threads")).parentPort;
host.postMessage(replies);
