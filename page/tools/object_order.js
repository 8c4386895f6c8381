// SPDX-License-Identifier: MIT OR Apache-2.0
// The order of objects in their layers, of which the last one is drawn last, and objects that go into another layer.

// What is done with the chosen objects: its words, and the places that they go to, from where they stand and how many the layer has.
export const ORDERS = {
  raise: ["Raise", (at, count) => Math.min(at + 1, count - 1)],
  lower: ["Lower", at => Math.max(at - 1, 0)],
  top: ["Raise to the top", (at, count) => count - 1],
  bottom: ["Lower to the bottom", () => 0],
};
// Those that are done from the last object on: so none of them goes past another one.
const FROM_LAST = new Set(["raise", "bottom"]);

const isSame = (one, other) => one.length === other.length && one.every((id, at) => id === other[at]);
const idsOf = layer => (layer.data.objects ?? []).map(({ id }) => id);

// The ids of objects by their layers, in the order in which they stand there.
function byLayers(all) {
  const layers = new Map(all.map(({ layer }) => [layer, new Set()]));
  for (const { object, layer } of all) layers.get(layer).add(object.id);
  return [...layers].map(([layer, ids]) => [layer, idsOf(layer).filter(id => ids.has(id))]);
}

// The lines that put the chosen objects of a layer elsewhere in it. One that would go past another chosen one stays.
function linesIn(layer, chosen, how) {
  const order = idsOf(layer);
  const lines = [];
  const moved = new Set();
  for (const id of FROM_LAST.has(how) ? [...chosen].reverse() : chosen) {
    const at = order.indexOf(id);
    const to = ORDERS[how][1](at, order.length);
    const isNext = Math.abs(to - at) === 1 && (how === "raise" || how === "lower") && moved.has(order[to]);
    moved.add(id);
    if (to === at || isNext) continue;
    order.splice(to, 0, ...order.splice(at, 1));
    lines.push(`object into ${id} ${layer.id} ${to}`);
  }
  return isSame(order, idsOf(layer)) ? [] : lines;
}

// Does lines as one step with a name; without lines it says why nothing is done.
function send(bench, lines, name, why) {
  if (!lines.length) return bench.say(why);
  return lines.length === 1 ? bench.act(lines) : bench.doAsOne(`${name} || ${name.toLowerCase()}`, lines);
}

// Raises or lowers objects in their layers: `all` has them with their layers.
export function order(bench, all, how) {
  const lines = byLayers(all).flatMap(([layer, ids]) => linesIn(layer, ids, how));
  const end = how === "raise" || how === "top" ? "above all others of its layer" : "below all others of its layer";
  return send(bench, lines, `${ORDERS[how][0].split(" ")[0]} Objects`, all.length === 1 ? `It is ${end} already.` : "They stand there already.");
}

// Puts objects into a layer, in their order, behind those that are there, or in front of one of these. null where the layer takes none.
export function putInto(bench, all, layer, before = null) {
  if (bench.barsObjects(layer, "moved")) return null;
  const ids = new Set(all.map(({ object }) => object.id));
  const left = idsOf(layer).filter(id => !ids.has(id));
  const place = before === null ? left.length : left.indexOf(before);
  const sorted = byLayers(all).flatMap(([, each]) => each);
  const now = idsOf(layer);
  const wanted = [...left.slice(0, place), ...sorted, ...left.slice(place)];
  if (isSame(wanted, now)) return null;
  return send(bench, linesInto(now, sorted, left, place, layer), "Move Objects", "");
}

// One after the other: those that stand in the layer and have yet to go are counted among the others.
function linesInto(now, sorted, left, place, layer) {
  const order = [...now];
  return sorted.map((id, at) => {
    if (order.includes(id)) order.splice(order.indexOf(id), 1);
    const behind = at > 0 ? sorted[at - 1] : left[place - 1];
    const to = behind === undefined ? 0 : order.indexOf(behind) + 1;
    order.splice(to, 0, id);
    return `object into ${id} ${layer.id} ${to}`;
  });
}
