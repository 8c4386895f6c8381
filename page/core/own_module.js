// SPDX-License-Identifier: MIT OR Apache-2.0
// The WebAssembly module that the page has in itself.
import { Module } from "../../js/roskevad.js";
import { byId } from "../panels/dom.js";

function bytesOf(coded) {
  const text = atob(coded);
  const bytes = new Uint8Array(text.length);
  for (let at = 0; at < text.length; at++) bytes[at] = text.charCodeAt(at);
  return bytes;
}

// Loads it, with a memory of its own.
export const loadModule = () => Module.load(bytesOf(byId("module").textContent));
