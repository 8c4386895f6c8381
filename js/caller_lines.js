// SPDX-License-Identifier: MIT OR Apache-2.0
// What is read of lines that a caller has written himself, before they are done.

// A line that is an edit, or begins or ends a macro; and one that is refused while a macro is open.
const EDIT = /^(?:stamp|erase|fill|select|layer|resize|extend|object|prop|tileset|member|begin|end)\+?(?: |$)/;
const NOT_IN_MACROS = /^(?:undo|redo|goto|clean|save)(?: |$)/;
// The characters of lines that are handed on at once.
const PART = 20_000;
const NEWLINE = "\n";

/** Whether macros that wait for their first edit begin before a line: it is one, or is refused within a macro. */
export function beginsMacros(line) {
  return EDIT.test(line) || NOT_IN_MACROS.test(line);
}

// Whether a line may close a document. Such a line is done by itself, so that the list of documents behind it tells:
// another document of its name may be open behind all of them.
function mayClose(line) {
  return line.includes("close ") || line.includes("discard ");
}

/**
 * Lines in parts, each of which has so many that it is handed on quickly. A line is a part where `isSingle` says so when
 * it comes to it, and where it may close a document.
 */
export function* partsOf(lines, isSingle) {
  for (let from = 0; from < lines.length; ) {
    let [to, length] = [from + 1, lines[from].length];
    const isAlone = mayClose(lines[from]) || isSingle();
    while (!isAlone && to < lines.length && length + lines[to].length < PART && !mayClose(lines[to])) {
      length += lines[to].length + 1;
      to += 1;
    }
    yield lines.slice(from, to);
    from = to;
  }
}

/** The same of a session, whose bytes stand for characters: where each part begins, and where it ends. */
export function* rangesOf(session, isSingle) {
  for (let from = 0; from < session.length; ) {
    let to = endOfLine(session, from);
    const isAlone = mayClose(session.slice(from, to)) || isSingle();
    while (!isAlone && to < session.length) {
      const end = endOfLine(session, to);
      if (mayClose(session.slice(to, end))) {
        break;
      }
      to = end;
    }
    yield [from, to];
    from = to;
  }
}

function endOfLine(session, from) {
  const at = session.indexOf(NEWLINE, from);
  return at < 0 ? session.length : at + 1;
}
