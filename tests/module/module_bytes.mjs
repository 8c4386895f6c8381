// SPDX-License-Identifier: MIT OR Apache-2.0
// Makes other modules of the bytes of one: cut short, of another version, with less memory or a smaller
// stack.
const [MEMORY, GLOBAL, DATA] = [5, 6, 11];
const encoder = new TextEncoder();

// Reads a number in seven bits a byte, and where it ends.
function unsigned(bytes, at) {
  let number = 0;
  for (let bits = 0; ; bits += 7) {
    const byte = bytes[at++];
    number += (byte & 127) * 2 ** bits;
    if (byte < 128) {
      return [number, at];
    }
  }
}

function unsignedBytes(number) {
  const bytes = [];
  for (; number > 127; number = Math.floor(number / 128)) {
    bytes.push((number % 128) | 128);
  }
  return [...bytes, number];
}

/** Where each section stands: its number, its first byte, the first of its content, and its end. */
export function sections(bytes) {
  const found = [];
  for (let at = 8; at < bytes.length; ) {
    const [size, content] = unsigned(bytes, at + 1);
    found.push({ number: bytes[at], at, content, end: content + size });
    at = content + size;
  }
  return found;
}

function section(bytes, number) {
  return sections(bytes).find((each) => each.number === number);
}

function withContent(bytes, { number, at, end }, content) {
  const head = [number, ...unsignedBytes(content.length)];
  return Uint8Array.from([...bytes.subarray(0, at), ...head, ...content, ...bytes.subarray(end)]);
}

/** The module with a memory of at most so many pages. */
export function withMostPages(bytes, pages) {
  const memory = section(bytes, MEMORY);
  const [least] = unsigned(bytes, memory.content + 2);
  return withContent(bytes, memory, [1, 1, ...unsignedBytes(least), ...unsignedBytes(pages)]);
}

// The first global is the place of the stack, which lies at the bottom of the memory: its head is the
// count of globals, a type, that it changes, and the instruction of a constant.
const HEAD_OF_STACK = 4;

/** The bytes of the stack. */
export function stackOf(bytes) {
  return unsigned(bytes, section(bytes, GLOBAL).content + HEAD_OF_STACK)[0];
}

/** The module with a smaller stack, of so many bytes. */
export function withStack(bytes, size) {
  const { content, end } = section(bytes, GLOBAL);
  const start = content + HEAD_OF_STACK;
  const [, behind] = unsigned(bytes, start);
  // A last byte of 0 is no sign.
  const number = unsignedBytes(size).map((byte) => byte | 128);
  return withContent(bytes, section(bytes, GLOBAL), [
    ...bytes.subarray(content, start), ...number, 0, ...bytes.subarray(behind, end),
  ]);
}

/** The module whose library tells another version of the same length. */
export function withLibraryVersion(bytes, version, other) {
  const changed = bytes.slice();
  const { content, end } = section(bytes, DATA);
  const [from, to] = [version, other].map((text) => encoder.encode(text));
  for (let at = content; at < end; at++) {
    if (from.every((byte, index) => bytes[at + index] === byte)) {
      changed.set(to, at);
    }
  }
  return changed;
}

/** The module with another version in the section at its end. */
export function withMark(bytes, version, other) {
  const [from, to] = [version, other].map((text) => encoder.encode(text));
  return Uint8Array.from([...bytes.subarray(0, bytes.length - from.length), ...to]);
}
