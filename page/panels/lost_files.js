// SPDX-License-Identifier: MIT OR Apache-2.0
// Files of tilesets that are not where a map says, which are found elsewhere in the folder.
import { FileList } from "../files/file_list.js";
import { folderOf, lastOf } from "../files/names.js";
import { isPictureName, wordsOfPicture } from "../files/new_tilesets.js";
import { isTilesetName } from "../files/places.js";
import { wordsOfTileset } from "../files/tileset_files.js";

// The files of a place that may be a lost one, those of its name first.
async function filesFor(place, path) {
  const files = isTilesetName(path) ? await place.tilesets() : (await place.names()).filter(each => isPictureName(each.path));
  const isNamed = each => lastOf(each.path) === lastOf(path);
  return [...files.filter(isNamed), ...files.filter(each => !isNamed(each))];
}

// Those of other lost files that stand beside the one that was found, as where a whole folder was moved.
async function foundBeside(place, others, folder) {
  const paths = others.map(path => [path, folder + lastOf(path)]);
  const bytes = await Promise.all(paths.map(([, found]) => place.bytes(found).catch(() => null)));
  return paths.filter((_, at) => bytes[at]);
}

// Asks where the first of the lost files is, and has it read from there, with others that stand beside it. Gives what is said of it; null
// where none was chosen.
export async function findLost(place, [path, ...others]) {
  const [look, kind] = isTilesetName(path) ? [wordsOfTileset, "tileset"] : [wordsOfPicture, "picture"];
  const none = `There is no ${kind} here. ${place.advice(path)}`;
  const found = await new FileList(`Where is ${lastOf(path)}?`, await filesFor(place, path), { look: each => look(place, each), none }).ask();
  if (!found) return null;
  if (!(await place.bytes(found))) return `${found} is not there.`;
  const all = [[path, found], ...(await foundBeside(place, others, folderOf(found)))];
  for (const each of all) place.found.take(...each);
  const more = all.length > 1 ? ` So ${all.length === 2 ? "is one more" : `are ${all.length - 1} more`} that lay beside it.` : "";
  return `${path} is read from ${found} now.${more} The map still names ${path}: put the file there, so that other programs find it, too.`;
}
