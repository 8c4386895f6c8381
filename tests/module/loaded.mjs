// SPDX-License-Identifier: MIT OR Apache-2.0
// Loads a module, and gives its memory too, which the package keeps to itself.
import { Module } from "../../js/roskevad.js";

export async function loaded(source) {
  const { instantiate } = WebAssembly;
  let memory;
  WebAssembly.instantiate = async (...words) => {
    const instance = await instantiate(...words);
    memory = instance.exports.memory;
    return instance;
  };
  try {
    return { module: await Module.load(source), memory };
  } finally {
    WebAssembly.instantiate = instantiate;
  }
}
