// SPDX-License-Identifier: MIT OR Apache-2.0
// Tells why a map would be refused, before it is opened: in a module of its own, which goes with the list of maps.
import { Editor, Refused } from "../../js/roskevad.js";
import { whyRefused } from "../core/map_refusals.js";
import { loadModule } from "../core/own_module.js";

export class MapProbe {
  constructor() {
    this.module = null;
  }

  // Words for a file: why it would be refused, and none where it would not. Then `use` may look at the editor that has it: what that
  // gives is `found`.
  async look(place, path, use) {
    const found = await place.read(path);
    return found ? this.lookInto(found.bytes, use) : { words: "the file is not there", isRefused: true };
  }

  // The same for the bytes of a file.
  async lookInto(bytes, use = () => null) {
    if (!this.module || this.module.isBroken) this.module = await loadModule();
    const editor = new Editor(this.module, { limit: 1 });
    try {
      await editor.openMap("map", bytes);
      return { words: "", isRefused: false, found: await use(editor) };
    } catch (fault) {
      if (!(fault instanceof Refused)) throw fault;
      return { words: whyRefused(fault), isRefused: true };
    } finally {
      if (!this.module.isBroken) editor.close();
    }
  }
}
