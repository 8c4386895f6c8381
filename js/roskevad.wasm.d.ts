// SPDX-License-Identifier: MIT OR Apache-2.0
import type { Source } from "./roskevad.js";

/** What a bundler gives for the module, as its bytes or where it is: `Editor.create({ module })` takes it. */
declare const module: Source;
export default module;
