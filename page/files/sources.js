// SPDX-License-Identifier: MIT OR Apache-2.0
// Where the files of documents are: a folder that a server gives, one that was chosen, or files that were chosen. The name of a file says
// nothing of another source.

// What a journal keeps of a place. `name` is the server's for its folder, and `folder` the browser's handle of a chosen one.
export function sourceOf(place) {
  return { kind: place.kind, title: place.title ?? null, folder: place.folder ?? null, name: place.source ?? null };
}

// Whether a source is that of a place.
export async function isSameSource(source, place) {
  const other = sourceOf(place);
  if (source.kind !== other.kind) return false;
  if (source.name && other.name) return source.name === other.name;
  if (source.folder?.isSameEntry && other.folder) return source.folder.isSameEntry(other.folder);
  return source.title === other.title;
}

// A source in words, for who has another one at hand.
export function wordsOf({ kind, title }) {
  return kind === "chosen" ? "files that were chosen elsewhere" : `another folder, ${title}`;
}
