// SPDX-License-Identifier: MIT OR Apache-2.0
// What an object has of its template, where the map says nothing else of it.

// Under this an object has the names of the members and of the properties that it has of its template: { members, properties }.
const INHERITED = Symbol("inherited");
// What each object has of its own.
const OWN = new Set(["id", "x", "y", "template", "properties"]);

// An object with what its template says, { members of an object }, or null where that is not known.
export function withTemplate(object, template) {
  if (!template) return object;
  const members = Object.keys(template).filter(name => !OWN.has(name) && !Object.hasOwn(object, name));
  const named = new Map((object.properties ?? []).map(each => [each.name, each]));
  const others = (template.properties ?? []).filter(({ name }) => !named.has(name));
  // One of its own stands where the template has it.
  const properties = [...new Set([...(template.properties ?? []).map(each => named.get(each.name) ?? each), ...named.values()])];
  return {
    ...Object.fromEntries(members.map(name => [name, template[name]])), ...object, ...(properties.length && { properties }),
    [INHERITED]: { members: new Set(members), properties: new Map(others.map(each => [each.name, each])) },
  };
}

// Whether an object has a member of its template.
export const isInherited = (object, name) => object[INHERITED]?.members.has(name) ?? false;

// The property of a name that an object has of its template; null where it has one of its own, or none.
export const inheritedProperty = (object, name) => object[INHERITED]?.properties.get(name) ?? null;
