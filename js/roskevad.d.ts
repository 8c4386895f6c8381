// SPDX-License-Identifier: MIT OR Apache-2.0
import type { Document, FileKind, Layer, Rows, StepRow, Told } from "./document.js";

export { Document, Layer, Layers, MapObject, Objects, Properties, Selection, Tileset, Tilesets } from "./document.js";
export type {
  AddedLayerKind, CellArea, Corners, FileKind, LayerKind, LayerLike, Layout, Members, ObjectLike, PropertyType, PropertyValue, Rows, Run,
  SelectionMode, SetPropertyType, SetPropertyValue, Status, Step, StepRow, Subject, Tile, TilesetLike, TilesetTile, Told, Work,
} from "./document.js";

/** The version of this package. */
export const VERSION: string;

/** The forms of the lines that begin with a word. */
export const FORMS: ReadonlyMap<string, readonly string[]>;

/**
 * The forms of the command that a line begins with; where it begins with none, those that begin with
 * its first letter.
 */
export function formsOf(line: string): string[];

/**
 * What a file, or the map in it, is at fault for: a program that handles it can go on with the next map. What is wrong
 * whatever the map is throws RangeError or TypeError instead. An import may call it otherwise: `Error as MapError`.
 */
export class Error extends globalThis.Error {}

/** The map has nothing with this id or name. `message` says which ids there are. */
export class NotFound extends Error {}

/** A property has a type in this map that does not take the value. The option `type` of `properties.set` gives it another one. */
export class OtherType extends Error {}

/** A tileset in a map does not say which tiles it has. */
export class BadTileset extends Error {}

/** A line or a call was refused, and nothing was done. Where a file of `report` can't be read, `cause` is what the host threw. */
export class Refused extends Error {
  constructor(
    code: number, words: string, line: string, place?: number | null, replies?: string[],
    more?: { isCall?: boolean; why?: string | null; placeInMap?: MapPlace | null; wordAtFault?: WordAtFault | null; cause?: unknown },
  );
  /** The number of the refusal: docs/refusals.md lists them. */
  readonly code: number;
  /** What the refusal says. */
  readonly words: string;
  /** The line, or the call, as `open(data, "town")`. */
  readonly line: string;
  /** Where the line is of no command, or is not as its command has it: the forms to write it in. */
  readonly forms: readonly string[];
  /** Of such a line: the word at fault; else null. */
  readonly wordAtFault: WordAtFault | null;
  /** Of a line among many: its place, from 0; else null. */
  readonly place: number | null;
  /** The replies to the lines before it, which are done. */
  readonly replies: readonly string[];
  /** Of `open`: why the map is not set aside or not unpacked, in words; else null. */
  readonly why: string | null;
  /** Of `open`, where the map is read and refused: where in its file; else null. */
  readonly placeInMap: MapPlace | null;
}

/** The word of a line at which it is no line. A text, which is the rest of a line, counts as one word. */
export interface WordAtFault {
  /** Which word it is, from 1. */
  readonly place: number;
  /** The word, or null where the line ends in front of it. */
  readonly word: string | null;
  /** What is wrong with it, as `word 1 is not a command`. */
  readonly text: string;
}

/** Where in a file a map has its fault. */
export interface MapPlace {
  /** The way from the root to it: names of members and indexes of entries; null where the file is no JSON. */
  readonly path: readonly (string | number)[] | null;
  /** Whether the fault is there, and not somewhere in what stands there. */
  readonly isExact: boolean;
  /** What stands there, short, as `an array of length 3`; null where the file is no JSON. */
  readonly shown: string | null;
  /** The place in words, with what stands there, as `layers[0].id is absent`. */
  readonly text: string;
  /** Where it begins in the file, from 1 and in bytes; null where layers of the map were unpacked. */
  readonly line: number | null;
  readonly column: number | null;
}

/**
 * The name of the document as which a file may be opened: that of the file, without what follows its last
 * point. Each character that no line can spell becomes `_`; points and hyphens at the front are left out,
 * and so is what follows 64 characters. It is `map` where nothing is left.
 */
export function documentName(path: string): string;

/** Rows of values flipped to the side, the tiles in them too. Throws TypeError, RangeError. */
export function flippedHorizontally(rows: Rows): number[][];

/** The same upside down. */
export function flippedVertically(rows: Rows): number[][];

/**
 * Rows of values turned to the right by a quarter, the tiles in them too, as on a map with square
 * cells. Throws TypeError, RangeError.
 */
export function turnedRight(rows: Rows): number[][];

/**
 * What is in a map, or why `Editor.open` refuses it: the bytes of a file, a Blob or a Response, or a file by its path in
 * Node, or by its address. An object as `map_report --json --all-maps` writes it, with the names that docs/map-files.md
 * has. Packed layers are unpacked, and places of objects have their fractions. `module` is as that of `Editor.create`.
 */
export function report(
  source: string | { readonly href: string } | ArrayBuffer | ArrayBufferView | { arrayBuffer(): Promise<ArrayBuffer> },
  options?: { module?: Source | Module },
): Promise<Report>;

/** A report of a map, which `refused` tells apart. */
export type Report = MapReport | RefusedReport;

/** What is in a map. */
export interface MapReport {
  /** The name of the file as it was given; null of bytes. */
  file: string | null;
  refused: null;
  width: number;
  height: number;
  tilewidth: number;
  tileheight: number;
  nextlayerid: number;
  nextobjectid: number;
  orientation: string;
  properties: ReportedProperty[];
  layers: ReportedLayer[];
  objects: ReportedObject[];
  tilesets: { firstgid: number; source: string | null }[];
}

/** Why there is no map. */
export interface RefusedReport {
  /** The name of the file as it was given; null of bytes. */
  file: string | null;
  refused: {
    /** The number of the refusal, and its words. */
    code: number;
    words: string;
    /** Where in the file: of what is no JSON its line and column, else the path of a member. */
    places: { path?: readonly (string | number)[]; line?: number; column?: number; text: string }[];
    /** Why, in words, where more is known than the code. */
    reason?: string;
  };
}

/** A property in a report. */
export interface ReportedProperty {
  name: string;
  type: string;
  value: unknown;
}

/** A layer in a report; of a tile layer also how many cells it has, and how many of them are set. */
export interface ReportedLayer {
  id: number;
  type: "tilelayer" | "objectgroup" | "imagelayer" | "group";
  name: string;
  /** The id of the group that it stands in. */
  group: number | null;
  visible: boolean;
  cells?: number;
  set?: number;
  properties: ReportedProperty[];
}

/** An object in a report. */
export interface ReportedObject {
  id: number;
  /** The id of its layer. */
  layer: number;
  name: string;
  class: string;
  shape: "rectangle" | "ellipse" | "point" | "polygon" | "polyline" | "text" | "tile";
  rotation: number;
  x: number;
  y: number;
  width: number;
  height: number;
  visible: boolean;
  gid: number | null;
  properties: ReportedProperty[];
}

/** A callback of a change has called what edits, says a line, or changes which documents are open or active. It may read. */
export class InCallback extends globalThis.Error {}

/** The editor, or the document, was closed. */
export class Closed extends globalThis.Error {}

/**
 * The module's memory has no room for that, and it cannot grow. Nothing was done; but a line that only
 * its reply has no room for is done.
 */
export class NoMemory extends globalThis.Error {}

/**
 * The engine broke a call off. Nothing is called in that module any more: each later call of each of
 * its editors throws this.
 */
export class Broken extends globalThis.Error {}

/** What was given is not the module of this package: it was cut short, or is of another version. */
export class BadModule extends globalThis.Error {}

// WebAssembly.Module, where the types of the host have it; it declares no members.
type Compiled = typeof globalThis extends { WebAssembly: { Module: { prototype: infer Type } } }
  ? Type & object
  : never;

/** Bytes, or a text, which stands for its UTF-8. */
export type Data = string | ArrayBuffer | ArrayBufferView;

/**
 * Where the module is: its bytes, a URL, a path (in Node of a file, in a page of what it is served
 * with), a Blob, a Response, or a WebAssembly.Module.
 */
export type Source =
  | string
  | { readonly href: string }
  | ArrayBuffer
  | ArrayBufferView
  | { arrayBuffer(): Promise<ArrayBuffer> }
  | Compiled;

/** A module that is loaded. It holds any number of editors, which share its memory and nothing else. */
export class Module {
  private constructor();
  /**
   * Loads the module; without a source, the one of this package, which stands beside it. Throws BadModule where
   * it is cut short or of another version, and TypeError where the package does not know where it stands itself.
   */
  static load(source?: Source): Promise<Module>;
  /** Whether the engine broke a call off. */
  readonly isBroken: boolean;
}

/** A run of selected cells: its row, its first column and its number of cells. */
export type SelectionRun = [row: number, column: number, count: number];

/**
 * An editor of tile maps, in memory, which does the lines that docs/session-lines.md lists.
 *
 * Its calls throw Closed behind `close`, Broken where the engine broke a call of its module off, and
 * NoMemory where the module has no memory for what they give.
 */
export class Editor {
  /**
   * An editor over a module of its own, which is loaded from `module` as `Module.load` does it, or over
   * a Module that is loaded. `limit` is the undo limit of each document when it is made, at most
   * 1,000,000, where 0 stands for none.
   */
  static create(options?: { limit?: number; module?: Source | Module }): Promise<Editor>;
  /** An editor over a module that is loaded. */
  constructor(module: Module, options?: { limit?: number });

  /** Gives back its memory. Twice is harmless. */
  close(): void;
  /** The same, for `using`, where the engine has that. It warns on the console of documents that are not saved. */
  [Symbol.dispose](): void;

  /**
   * Opens a new map, sized in cells and in pixels, with an empty tile layer 1 and a tileset, by the path of
   * its file from the map's folder, whose first id is 1. Throws TypeError, RangeError, Refused (11, 39).
   */
  new(
    name: string, width: number, height: number, tileWidth: number, tileHeight: number, tileset: string,
  ): Document;
  /**
   * Opens the map of the bytes of a file, as a document of that name, or else of `map`, `map2` or so.
   * Throws TypeError, RangeError, Refused (11, 60 to 69).
   */
  open(data: Data, name?: string): Promise<Document>;
  /** The open documents by their names, in order of opening; later calls do not change it. */
  readonly documents: ReadonlyMap<string, Document>;
  /** The active document; null where none is. Set, it makes a document active, or none. */
  active: Document | null;

  /** Does what a line asks for, and gives the reply, "" where the line is quiet. Throws Refused. */
  step(line: string): string;
  /**
   * Does what a line of bytes asks for, and gives the bytes of the reply, whatever it is; null where the
   * line is quiet.
   */
  stepBytes(line: Data): Uint8Array | null;

  /**
   * Does lines, one after another, with less work for each than by `step`, and gives the replies to
   * those that are not quiet. Throws Refused at the first one that is refused, with its place and the
   * replies before it. Throws RangeError for a line with a newline in it, and does nothing.
   */
  runLines(lines: readonly string[]): string[];
  /**
   * Does the lines of a session, which is cut at newlines, and gives the replies, whatever they are, each
   * with a newline.
   */
  runBytes(session: Data): Uint8Array;

  /**
   * Puts bytes, or a text, under a name, in place of those that are there. Throws RangeError where no
   * line can spell that name.
   */
  putFile(name: string, data: Data): void;
  /** The bytes under a name, and null where there is no file of that name. */
  file(name: string): Uint8Array | null;
  /** Takes a file out, and says whether there was one of that name. */
  removeFile(name: string): boolean;
  /** The names of the files, in their order. */
  files(): string[];

  /**
   * Opens a document of that name with any map that Tiled saves, given as the bytes of a file, in JSON or in XML: what
   * the editor's format refuses is set aside, and layers are unpacked. Gives the reply to `open`. Throws
   * Refused; its `why` says why a map is not set aside or unpacked.
   */
  openMap(name: string, data: Data): Promise<string>;
  /**
   * The active document's map as the bytes of a file, with all put back that was set aside, packed as it was, and in
   * the layout of the bytes that were opened or saved last; in that of Tiled where it is new. Its index is the clean one at once: what is done until the promise is kept is not called saved.
   * Where the promise is broken, no index is clean. It is of the kind of these bytes, or of the one that is named: "json" or "tmx".
   * Throws Refused, RangeError.
   */
  saveMap(options?: { kind?: FileKind }): Promise<Uint8Array>;

  /** The active document's map, as `show` gives it, with its fractions put back as numbers. Throws Refused. */
  map(): Record<string, unknown>;
  /** The same without the `data` of tile layers, which is quicker. Throws Refused. */
  outline(): Record<string, unknown>;
  /**
   * The column and the row of the infinite map at which the corner of the finite one stands, in cells;
   * [0, 0] of a map that was not infinite. Throws Refused.
   */
  origin(): [column: number, row: number];
  /**
   * The cells of a rectangle of a tile layer, or the one with this id, row by row; null where no document is
   * active, there is no such tile layer, or the rectangle leaves the map.
   */
  cells(layer: number | Layer, x: number, y: number, width: number, height: number): Uint32Array | null;
  /**
   * The id of the first layer of that name, in drawing order, groups and what stands in them too. Throws
   * NotFound where there is none.
   */
  layerId(name: string): number;
  /** The id of the first object of that name, in drawing order. Throws NotFound where there is none. */
  objectId(name: string): number;
  /** The id of the layer that was added last: the next id less one. Throws Refused. */
  lastLayerId(): number;
  /** The id of the object that was added last: the next id less one. Throws Refused. */
  lastObjectId(): number;
  /** The runs of the active document's selection in row order. */
  selection(): SelectionRun[];
  /** The index at which the active document counts as clean; null where that was lost or none is active. */
  cleanIndex(): number | null;
  /** Whether the step at this place of the active document, from 0, is a macro; null where there is none. */
  isMacro(at: number): boolean | null;
  /** The text for the action of the step at this place, from 0; null where there is none. */
  actionText(at: number): string | null;
  /**
   * What the last line did, of the document that is active now. What is not told to differ is as it was. Of several lines in
   * one call it tells what differs between both ends. Ask before the next line.
   */
  told(): Told;
  /**
   * The steps of the active document, done and undone, with what each is about and changes: from one on, up to another,
   * which is left out, or to the last; an open macro stands last. None where no document is active. Throws TypeError,
   * RangeError.
   */
  steps(start?: number, stop?: number | null): StepRow[];
}

declare global {
  interface SymbolConstructor {
    readonly dispose: unique symbol;
  }
}
