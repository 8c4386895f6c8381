// SPDX-License-Identifier: MIT OR Apache-2.0
// What the files of tilesets tell, `.tsx` or `.tsj`: read with care, since a file may claim anything.
import { Wrong, grouped } from "./image_files.js";
import { GRID, ODD, OddMembers, TILESET } from "./members.js";
import { looksOf } from "./tileset_looks.js";
import { loadModule } from "../core/own_module.js";
import { NoMemory } from "../../js/roskevad.js";
import { tilesetFile } from "../../js/tileset_files.js";

// From how many bytes on a file of a tileset is long, the longest one that is read, and the longest side of a tile that is drawn.
const LONG = 1024 * 1024;
const LONGEST = 16 * 1024 * 1024;
const LONGEST_SIDE = 4096;
const LONGEST_NAME = 80;
const NUMBERS = Object.keys(GRID);

// ---- the file
// The module that reads files of tilesets, with a memory of its own, once one was read. It goes behind a long file, since it keeps what memory
// that took.
let loading = null;

function forget(fault = null) {
  loading = null;
  if (fault) throw fault;
}

const readingModule = () => (loading ??= loadModule().catch(forget));

// What a file tells, in XML or in JSON, with the members that a tileset in JSON has: each as it stands there. Throws Wrong.
export async function readTileset(bytes) {
  if (bytes.length > LONGEST) throw new Wrong(`its file has more than ${LONGEST / 1024 / 1024} MiB`);
  const module = await readingModule();
  try {
    const { members, why } = tilesetFile(module, bytes);
    if (members) return members;
    throw new Wrong(`its file is no tileset: ${why}`);
  } catch (fault) {
    throw fault instanceof NoMemory ? new Wrong("there is not memory enough for its file") : fault;
  } finally {
    if (module.isBroken || bytes.length > LONG) forget();
  }
}

// ---- what is told
// What a file tells, where each number is one that can be drawn with; throws Wrong. Other odd members are told to `odd`, and count as not
// there.
export function checked(file, odd = new OddMembers(), title = "the tileset") {
  const members = TILESET.take(file, odd, title);
  const wrong = NUMBERS.find(name => members[ODD]?.includes(name));
  if (wrong) throw new Wrong(`its ${wrong} is ${shownNumber(file[wrong])}, and must be ${GRID[wrong].words}`);
  if (members[ODD]?.includes("image")) throw new Wrong("its image is no path");
  for (const name of ["tilewidth", "tileheight"]) {
    if (members[name] > LONGEST_SIDE) throw new Wrong(`its ${name} is ${grouped(members[name])} pixels, and tiles up to ${grouped(LONGEST_SIDE)} are drawn`);
  }
  const looks = looksOf(members);
  const farthest = Math.max(...looks.offset.map(Math.abs));
  if (farthest > LONGEST_SIDE) throw new Wrong(`its tiles are moved by ${grouped(farthest)} pixels, and up to ${grouped(LONGEST_SIDE)} are drawn`);
  const numbers = NUMBERS.filter(name => members[name] !== undefined).map(name => [name, members[name]]);
  return { ...Object.fromEntries(numbers), name: (members.name ?? "").slice(0, LONGEST_NAME), image: members.image || null, tiles: endOf(members.tiles ?? []), ...looks };
}

// The first id behind those of the tiles that are told one by one.
const endOf = tiles => tiles.reduce((most, { id }) => Math.max(most, (id ?? -1) + 1), 0);

const shownNumber = value => (Number.isNaN(value) ? "no number" : JSON.stringify(value)?.slice(0, 20) ?? "nothing");

// What a list of files says of one: how many tiles it has.
export async function wordsOfTileset(place, path) {
  const bytes = await place.bytes(path);
  if (!bytes) return { words: "the file is not there", isRefused: true };
  const { tilecount, tilewidth, tileheight, image } = checked(await readTileset(bytes));
  return { words: `${tilecount ?? "?"} tiles of ${tilewidth ?? "?"} × ${tileheight ?? "?"}${image ? "" : ", not of one image"}`, isRefused: false };
}

// How many columns and tiles an image holds of a tileset.
export function heldBy({ width, height }, { tileWidth, tileHeight, spacing, margin, columns }) {
  const fitting = (length, side) => Math.max(0, Math.floor((length - margin + spacing) / (side + spacing)));
  const across = fitting(width, tileWidth);
  const wide = columns ? Math.min(columns, across) : across;
  return { columns: columns || across, count: wide < (columns || 0) ? 0 : wide * fitting(height, tileHeight) };
}

// Why an image does not hold what is claimed; "" where it does.
export function claimOf({ width, height }, { tileWidth, tileHeight, columns }, held, count) {
  const size = `${grouped(width)} × ${grouped(height)}`;
  if (held.count === 0 && columns && tileWidth <= width && tileHeight <= height) {
    return `it claims ${grouped(columns)} columns of ${grouped(tileWidth)} pixels, and its image has ${size}`;
  }
  if (held.count === 0) return `its tiles have ${grouped(tileWidth)} × ${grouped(tileHeight)} pixels, and its image has ${size}`;
  return count > held.count ? `it claims ${grouped(count)} tiles, and its image holds ${grouped(held.count)}` : "";
}
