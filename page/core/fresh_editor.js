// SPDX-License-Identifier: MIT OR Apache-2.0
// An editor that begins from maps as they are, without steps, and the entries of a journal that begins so.
import { Editor } from "../../js/roskevad.js";
import { hashOf } from "../files/hashes.js";
import { OpenDocuments } from "./open_documents.js";
import { answerTo, opened } from "./replies.js";
import { Said } from "./thrown_words.js";

export class FreshEditor {
  constructor(module, limit) {
    Object.assign(this, { editor: new Editor(module, { limit }), openDocuments: new OpenDocuments(), entries: [] });
  }

  // Opens a map. `file` is the file of its document, or null; what is not saved stays so. Throws where the map is refused.
  async open({ name, isClean, file }, bytes) {
    const [hash, word] = [await hashOf(bytes), file?.word ?? `${name}.tmj`];
    const { reply, refusal, why } = await opened(this.editor, name, bytes);
    if (refusal) throw new Said(`${name}: ${why ?? reply}`);
    this.take({ line: `open ${name} ${word}`, reply, file: { path: file?.path ?? null, bytes, hash, size: bytes.length, time: file?.mark?.time ?? 0 } });
    // The file itself may have other bytes.
    if (file && file.mark?.hash !== hash) this.arrive(name, file);
    if (!isClean) this.say("dirty");
  }

  arrive(name, { path, word, mark }) {
    const document = this.openDocuments.byName.get(name);
    document.arrive({ path, word, mark });
    this.entries.push({ written: { document: name, life: document.life, path, word, mark } });
  }

  say(line) {
    this.take({ line, reply: answerTo(this.editor, line).reply });
  }

  take(entry) {
    this.entries.push(entry);
    this.openDocuments.note(entry, () => this.editor.told());
  }
}
