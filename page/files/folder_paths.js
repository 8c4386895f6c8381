// SPDX-License-Identifier: MIT OR Apache-2.0
// The files of a folder, to choose one: their paths from the folder of a map.

// A path that leads from a folder to a file, both told from the same top. The folder ends with a slash, or is empty.
function leading(folder, path) {
  const [from, to] = [folder.split("/").slice(0, -1), path.split("/")];
  let same = 0;
  while (same < from.length && from[same] === to[same]) same++;
  return [...from.slice(same).map(() => ".."), ...to.slice(same)].join("/");
}

// The paths of all files that a place has, from a folder of it.
export async function pathsFrom(place, folder) {
  return (await place.names()).map(({ path }) => leading(folder, path)).sort();
}
