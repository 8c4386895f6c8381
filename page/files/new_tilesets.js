// SPDX-License-Identifier: MIT OR Apache-2.0
// A tileset that is made of a picture: what it has as a part of a map, and as a file of its own, as Tiled writes one.
import { folderOf, lastOf, pathFrom } from "./names.js";
import { heldBy } from "./tileset_files.js";
import { grouped, imageFile } from "./image_files.js";
import { Failed } from "./places.js";

// The version of Tiled's format that is written.
const FORMAT = "1.10";
const BAD_NAME = /[/\\:*?"<>|]|^\./;

export const isPictureName = name => /\.(png|jpe?g|gif|webp|bmp)$/i.test(name);

// The name that is proposed for a tileset of a picture.
export const nameFor = path => lastOf(path).replace(/\.[^.]*$/, "");

// A picture of a place: { path, bytes, width, height }. Throws Failed or WrongImage.
export async function pictureIn(place, path) {
  const bytes = await place.bytes(path);
  if (!bytes) throw new Failed("the file is not there");
  return imageFile(path, bytes);
}

// What a list of files says of a picture: its size.
export async function wordsOfPicture(place, path) {
  const { width, height } = await pictureIn(place, path);
  return { words: `${grouped(width)} × ${grouped(height)} pixels`, isRefused: false };
}

// How a picture is cut: { columns, rows, count, restX, restY }, where the rests are the pixels that are of no tile at the right and below.
export function cutOf({ width, height }, { side, tall, margin, spacing }) {
  const { columns, count } = heldBy({ width, height }, { tileWidth: side, tileHeight: tall, margin, spacing, columns: 0 });
  const rows = columns ? count / columns : 0;
  const rest = (length, tiles, one) => Math.max(0, length - margin - (tiles ? tiles * (one + spacing) - spacing : 0));
  return { columns, rows, count, restX: rest(width, columns, side), restY: rest(height, rows, tall) };
}

// What a tileset of a picture has, named from a folder.
export function membersOf(picture, { name, side, tall, margin, spacing }, folder) {
  const { columns, count } = cutOf(picture, { side, tall, margin, spacing });
  return {
    columns, image: pathFrom(folder, picture.path), imageheight: picture.height, imagewidth: picture.width, margin, name, spacing,
    tilecount: count, tileheight: tall, tilewidth: side,
  };
}

// The bytes of a tileset's file.
export function fileOf(members) {
  return new TextEncoder().encode(`${JSON.stringify({ ...members, type: "tileset", version: FORMAT }, null, 1)}\n`);
}

// Why a name is none of a file; "" where it is.
export const whyNoFileName = name => (BAD_NAME.test(name) ? "A name of a file: without / \\ : * ? \" < > | in it, and no dot in front." : "");

// Writes the file of a tileset beside a map, where none of that name is there. It names its picture from its own folder. Gives its path, or
// null where the file is there already.
export async function writeTileset(place, folder, picture, made) {
  const path = `${folder}${made.name}.tsj`;
  if (await place.read(path)) return null;
  await place.write(path, fileOf(membersOf(picture, made, folderOf(path))), null);
  return path;
}
