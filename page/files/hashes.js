// SPDX-License-Identifier: MIT OR Apache-2.0
// Sums of bytes and of texts.

// The SHA-256 of bytes, as 64 digits.
export async function hashOf(bytes) {
  const sum = new Uint8Array(await crypto.subtle.digest("SHA-256", bytes));
  return Array.from(sum, byte => byte.toString(16).padStart(2, "0")).join("");
}

// A sum of 32 bits of a text (FNV-1a over its units of 16 bits), which tells a text that was damaged.
export function sumOf(text) {
  let sum = 0x811c9dc5;
  for (let at = 0; at < text.length; at++) sum = Math.imul(sum ^ text.charCodeAt(at), 0x01000193);
  return sum >>> 0;
}
