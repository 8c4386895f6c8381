// SPDX-License-Identifier: MIT OR Apache-2.0
// What several objects share: the members and properties that each of them has with the same value.
const MEMBERS = { name: "", type: "", class: "", x: 0, y: 0, width: 0, height: 0, rotation: 0, visible: true };
export const MIXED = "several values";

// What a table is about, where that is one thing.
export const owned = (word, data, title) => ({ word, data, title, mixed: new Set(), all: [{ word, data }] });

const valueOf = (object, name) => object[name] ?? MEMBERS[name];

// The properties that all have with one name and one type, and the names of those with other values.
function sharedProperties(objects) {
  const [first, ...others] = objects.map(({ properties = [] }) => new Map(properties.map(each => [`${each.type ?? "string"} ${each.name}`, each])));
  const shared = [...first].filter(([key]) => others.every(each => each.has(key)));
  const isMixed = ([key, { value }]) => others.some(each => JSON.stringify(each.get(key).value) !== JSON.stringify(value));
  return { properties: shared.map(([, each]) => each), mixed: shared.filter(isMixed).map(([, { name }]) => `property ${name}`) };
}

// What a table is about, where that is several objects.
export function sharedOwner(objects) {
  const [first, ...others] = objects;
  const { properties, mixed } = sharedProperties(objects);
  const names = Object.keys(MEMBERS).filter(name => others.some(each => valueOf(each, name) !== valueOf(first, name)));
  const gids = new Set(objects.map(({ gid }) => gid));
  const isOfTiles = !gids.has(undefined);
  const data = { ...(isOfTiles && { gid: first.gid }), ...Object.fromEntries(Object.keys(MEMBERS).map(name => [name, valueOf(first, name)])), properties };
  const all = objects.map(object => ({ word: `object:${object.id}`, data: object }));
  return { word: `objects:${objects.map(({ id }) => id).join(",")}`, data, title: `${objects.length} objects`, mixed: new Set([...names, ...mixed, ...(gids.size > 1 ? ["gid"] : [])]), all };
}

// What a field shows of a member: nothing where the values are several.
export const shownOf = ({ mixed }, name, value) => (mixed.has(name) ? "" : String(value));

// Has a field tell that the values are several, in a word where two fields stand beside one another.
export function showMixed({ input }, { mixed }, name) {
  const words = ["x", "y", "width", "height"].includes(name) ? "several" : MIXED;
  if (input.type === "checkbox") input.indeterminate = mixed.has(name);
  else input.placeholder = mixed.has(name) ? words : "";
}
