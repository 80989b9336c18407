// The values that callers pass: each is checked before any call of the library.

const MOST_WORD = 0xffffffff, MOST_WIDTH = 1 << 20, MOST_OFFSET = 127, GIB = 2 ** 30;

/** Numbers of t85.h. */
export const STATUS = { DONE: 0, NO_ROOM: 18, NO_MORE_PARTS: 52, HEADER_READ: 60, ROW: 61, MORE: 62 };
export const OPTION_BITS = { TWO_LINES: 0x40, VARIABLE_HEIGHT: 0x20, TYPICAL: 0x08 };

/** An error of the library: its status, its text and, for a broken stream, the certain rows. */
export class T85Error extends Error {
  constructor(number, text) {
    super(text);
    this.name = "T85Error";
    this.number = number;
    this.text = text;
    this.rows = null;
  }
}

/** The number of bytes in a row. */
export function rowBytes(width) {
  return Math.ceil(width / 8);
}

/** Returns bytes as a Uint8Array over the same memory. */
export function bytesOf(value, name) {
  if (value instanceof Uint8Array) return value;
  if (value instanceof ArrayBuffer) return new Uint8Array(value);
  if (ArrayBuffer.isView(value)) return new Uint8Array(value.buffer, value.byteOffset, value.byteLength);
  throw new TypeError(`${name} is not a buffer of bytes`);
}

/** Returns a whole number from 0 to the greatest one. */
export function wordOf(value, name, most = MOST_WORD, least = 0) {
  if (typeof value !== "number") throw new TypeError(`${name} is not a number`);
  if (!Number.isInteger(value) || value < least || value > most) throw new RangeError(`${name} is not a whole number from ${least} to ${most}`);
  return value;
}

export function sizeOf(width, height) {
  return { width: wordOf(width, "width", MOST_WIDTH, 1), height: wordOf(height, "height", MOST_WORD, 1) };
}

function flagOf(value, name) {
  if (typeof value !== "boolean") throw new TypeError(`${name} is not a boolean`);
  return value;
}

/** Returns the library's numbers for encoding options, and the comment. */
export function optionsOf(given) {
  const known = { stripeRows: 128, mostOffset: 0, twoLines: false, typical: true, variableHeight: false, announcedHeight: null, reset: false, comment: null };
  if (given === null || typeof given !== "object") throw new TypeError("options are not an object");
  for (const name of Object.keys(given)) if (!(name in known)) throw new TypeError(`there is no option ${name}`);
  const options = { ...known, ...given };
  const { TWO_LINES, VARIABLE_HEIGHT, TYPICAL } = OPTION_BITS, bits = [["twoLines", TWO_LINES], ["variableHeight", VARIABLE_HEIGHT], ["typical", TYPICAL]];
  return {
    numbers: {
      options: bits.reduce((sum, [name, bit]) => sum + (flagOf(options[name], name) ? bit : 0), 0),
      stripeRows: wordOf(options.stripeRows, "stripeRows", MOST_WORD, 1),
      mostOffset: wordOf(options.mostOffset, "mostOffset", MOST_OFFSET),
      announcedHeight: options.announcedHeight === null ? 0 : wordOf(options.announcedHeight, "announcedHeight", MOST_WORD, 1),
      announcesHeight: options.announcedHeight !== null,
      reset: flagOf(options.reset, "reset"),
    },
    comment: options.comment === null ? null : bytesOf(options.comment, "comment"),
  };
}

/** Returns the limits of a decoded image: its rows, and their bytes, which are 1 GiB by default. */
export function limitsOf(given) {
  if (given === null || typeof given !== "object") throw new TypeError("limits are not an object");
  const { maxRows = MOST_WORD, maxBytes = GIB, ...others } = given;
  for (const name of Object.keys(others)) throw new TypeError(`there is no limit ${name}`);
  return { maxRows: wordOf(maxRows, "maxRows"), maxBytes: maxBytes === Infinity ? Infinity : wordOf(maxBytes, "maxBytes", Number.MAX_SAFE_INTEGER) };
}

/** Rows of one image, adjacent in memory that doubles as they come. */
export class Rows {
  #bytes = new Uint8Array(4096);
  #length = 0;

  push(row) {
    if (this.#length + row.length > this.#bytes.length) {
      const more = new Uint8Array(Math.max(2 * this.#bytes.length, this.#length + row.length));
      more.set(this.#bytes.subarray(0, this.#length));
      this.#bytes = more;
    }
    this.#bytes.set(row, this.#length);
    this.#length += row.length;
  }

  /** The image of these rows, or of the first ones, as many as the height. */
  image(width, height = this.#length / rowBytes(width)) {
    return { width, height, rows: this.#bytes.slice(0, height * rowBytes(width)) };
  }
}
