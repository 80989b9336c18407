// JBIG1 (ITU-T T.82) in the fax profile T.85: the calls of libt85 over its build as WebAssembly, which imports nothing.
//
//     import { load } from "./t85.mjs";
//     const t85 = await load(new URL("t85.wasm", import.meta.url));
//     const stream = t85.encode(Uint8Array.of(0xf0, 0x0f), 8, 2);
//     const { width, height, rows } = t85.decode(stream);
//
// An image has one bit for each pixel, the first of a row in the most significant bit of its first byte; 1 is black, and each row
// begins with a new byte.
import { Library } from "./library.mjs";
import { OPTION_BITS, Rows, STATUS, T85Error, bytesOf, limitsOf, optionsOf, rowBytes, sizeOf, wordOf } from "./values.mjs";

export { T85Error, rowBytes };
export const PARTS = ["header", "comment", "move", "new height", "data entity"];

const DECODER_BYTES = 1280, HEADER_BYTES = 20;
// The rows that a call of the library decodes at most, before they are handed on.
const BATCH = 64;

/** Returns the calls of a module: its bytes, a compiled module, or the URL of either. */
export async function load(source) {
  if (source instanceof WebAssembly.Module) return new T85(await WebAssembly.instantiate(source, {}));
  if (typeof source === "string" || source instanceof URL) source = await fetched(source);
  return new T85((await WebAssembly.instantiate(bytesOf(source, "source"), {})).instance);
}

async function fetched(url) {
  const { href, protocol } = new URL(url, import.meta.url);
  if (protocol === "file:") return (await import("node:fs/promises")).readFile(new URL(href));
  const answer = await fetch(href);
  if (!answer.ok) throw new Error(`${href}: ${answer.status} ${answer.statusText}`);
  return new Uint8Array(await answer.arrayBuffer());
}

class T85 {
  #library;

  constructor(instance) {
    this.#library = new Library(instance);
  }

  /** Whether the module's memory has 64-bit addresses, as the proved build's has. */
  get is64Bit() {
    return this.#library.isWide;
  }

  /** Returns the version of the library, as "1.0.0". */
  version() {
    const number = this.#library.call.t85_version();
    return [number >> 16, (number >> 8) & 255, number & 255].join(".");
  }

  /** Returns the text of a status. */
  message(status) {
    return this.#library.message(wordOf(status, "status", 255));
  }

  /** Encodes an image of packed rows, and returns the stream. The options are those of Options in t85.d.mts. */
  encode(rows, width, height, options = {}) {
    const { numbers, comment } = optionsOf(options), image = sizeOf(width, height), given = bytesOf(rows, "rows");
    const expected = rowBytes(image.width) * image.height;
    if (given.length !== expected) throw new RangeError(`rows have ${given.length} bytes, and not ${expected}`);
    for (let room = 4096 + given.length; ; room *= 2) {
      const made = this.#library.encoded({ ...image, rows: given, numbers, comment }, room);
      if (made.status === STATUS.DONE) return made.stream;
      if (made.status !== STATUS.NO_ROOM) throw this.#error(made.status);
    }
  }

  /** Returns the fields of a stream's header, and facts about the rest, without decoding pixels. */
  info(stream) {
    const { status, ...facts } = this.#library.facts(bytesOf(stream, "stream"));
    if (status !== STATUS.DONE) throw this.#error(status);
    return facts;
  }

  /** Returns the fields of the header alone. */
  header(stream) {
    const { status, ...fields } = this.#library.header(bytesOf(stream, "stream"));
    if (status !== STATUS.DONE) throw this.#error(status);
    return fields;
  }

  /** Yields the parts of a stream: kind, offset, length, and the number of stripes before it. */
  *parts(stream) {
    const bytes = bytesOf(stream, "stream").slice(), walk = this.#library.walk();
    for (;;) {
      const { status, kind, ...part } = this.#library.nextPart(bytes, walk);
      if (status === STATUS.NO_MORE_PARTS) return;
      if (status !== STATUS.DONE) throw Object.assign(this.#error(status), { offset: part.offset, stripe: part.stripe });
      yield { kind: PARTS[kind], ...part };
    }
  }

  /** Decodes a stream, and returns its width, height and rows. A T85Error has the certain rows of a broken stream. */
  decode(stream, limits = {}) {
    const pieces = new Pieces(this.#library, limitsOf(limits)), rows = new Rows();
    try {
      pieces.pass(bytesOf(stream, "stream"));
      for (const row of pieces.allRows()) rows.push(row);
      pieces.end();
      for (const row of pieces.allRows()) rows.push(row);
    } catch (error) {
      if (error instanceof T85Error && pieces.header) error.rows = rows.image(pieces.header.width);
      throw error;
    }
    return rows.image(pieces.header.width, pieces.height);
  }

  /** Returns a pair of streams: pieces of a stream are written to `writable`, and packed rows are read from `readable`, which fails
      with a T85Error once all rows of a broken stream were read. `header` is set once 20 bytes were decoded. While a height may
      arrive late, rows may come that it cuts off: `height` is right once `readable` has ended. */
  decoder(limits = {}) {
    return new Decoder(new Pieces(this.#library, limitsOf(limits)));
  }

  /** Reads a PBM image, raw or plain, and returns its width, height and rows. Bytes behind it are ignored. */
  readPbm(bytes, limits = {}) {
    const { maxBytes } = limitsOf(limits), rows = new Rows();
    let size = null;
    const begin = (width, height) => {
      if (height * rowBytes(width) > maxBytes) throw this.#error(STATUS.NO_ROOM);
      size = { width, height };
    };
    const status = this.#library.pbm(bytesOf(bytes, "bytes"), begin, (row) => rows.push(row));
    if (status !== STATUS.DONE) throw this.#error(status);
    return rows.image(size.width, size.height);
  }

  #error(status) {
    return new T85Error(status, this.#library.message(status));
  }
}

/** A stream in pieces. The struct and the window are kept here between calls: the module's memory is used anew by each. */
class Pieces {
  header = null;
  #library;
  #limits;
  #state;
  #window = new Uint8Array(0);
  #front = new Uint8Array(HEADER_BYTES);
  #seen = 0;
  #piece = new Uint8Array(0);
  #isAll = false;
  #mostRows = 0;
  #count = 0;
  #status = STATUS.MORE;

  constructor(library, limits) {
    this.#library = library;
    this.#limits = limits;
    this.#state = library.startedDecoder(DECODER_BYTES, limits.maxRows);
  }

  get height() {
    return this.#library.heightOf(this.#state);
  }

  get isDone() {
    return this.#status === STATUS.DONE;
  }

  /** Passes the next piece, after `rows` has returned all of the last one. */
  pass(piece) {
    this.#piece = piece;
    if (this.#seen >= HEADER_BYTES) return;
    const some = piece.subarray(0, HEADER_BYTES - this.#seen);
    this.#front.set(some, this.#seen);
    this.#seen += some.length;
  }

  /** Says that no piece follows. */
  end() {
    this.#isAll = true;
  }

  /** Yields the rows that the bytes so far determine. */
  *allRows() {
    for (let rows = this.rows(); rows.length > 0; rows = this.rows()) yield* rows;
  }

  /** Returns some more rows that the bytes so far determine; none if the next piece is needed, or at the end. */
  rows() {
    while (this.#status === STATUS.MORE) {
      const most = Math.min(BATCH, this.#mostRows - this.#count + 1);
      const { status, taken, rows } = this.#library.decoded(this.#state, this.#window, this.#piece, this.#isAll, most);
      this.#piece = this.#piece.subarray(taken);
      if (rows.length > 0) return this.#counted(rows);
      if (status === STATUS.HEADER_READ) this.#begin();
      else if (status === STATUS.MORE) break;
      else this.#finish(status);
    }
    return [];
  }

  #begin() {
    const { status, ...fields } = this.#library.header(this.#front);
    this.header = fields;
    this.#window = new Uint8Array(this.#library.windowBytes(fields.width));
    this.#mostRows = this.#limits.maxBytes / rowBytes(fields.width);
    if (!(fields.options & OPTION_BITS.VARIABLE_HEIGHT) && fields.height > this.#mostRows) this.#finish(STATUS.NO_ROOM);
  }

  /** Counts rows. The first one above the limit is not returned: if it comes alone, it is an error. */
  #counted(rows) {
    const within = Math.min(rows.length, Math.floor(this.#mostRows) - this.#count);
    if (within === 0) this.#finish(STATUS.NO_ROOM);
    this.#count += within;
    return rows.slice(0, within);
  }

  #finish(status) {
    this.#status = status;
    if (status !== STATUS.DONE) throw new T85Error(status, this.#library.message(status));
  }
}

/** Rows are decoded as they are read, so that few bytes that denote many rows fill no memory. */
class Decoder {
  readable;
  writable;
  #pieces;
  #waiting = null;
  #offered = null;
  #error = null;

  constructor(pieces) {
    this.#pieces = pieces;
    this.writable = new WritableStream({
      write: (piece) => this.#offer(() => pieces.pass(bytesOf(piece, "piece").slice())),
      close: () => this.#offer(() => pieces.end()),
      abort: (reason) => this.#offer(() => { throw reason; }),
    });
    const pull = (controller) => this.#pull(controller).catch((error) => this.#fail(error));
    const cancel = (reason) => this.#fail(reason ?? new Error("rows are no longer read")).catch(() => undefined);
    this.readable = new ReadableStream({ pull, cancel }, { highWaterMark: 0 });
  }

  get header() {
    return this.#pieces.header;
  }

  get height() {
    return this.#pieces.height;
  }

  /** Offers a piece, or the end, and waits until it is taken. */
  #offer(pass) {
    if (this.#error) throw this.#error;
    if (this.#pieces.isDone) return undefined;
    return new Promise((taken, refused) => {
      this.#offered = { pass, taken, refused };
      this.#waiting?.();
    });
  }

  /** Fails both sides. */
  async #fail(error) {
    this.#error = error;
    this.#offered?.refused(error);
    throw error;
  }

  async #pull(controller) {
    for (;;) {
      const rows = this.#pieces.rows();
      for (const row of rows) controller.enqueue(row);
      if (rows.length > 0) return;
      if (this.#pieces.isDone) {
        this.#offered?.taken();
        return controller.close();
      }
      if (!this.#offered) await new Promise((resolve) => { this.#waiting = resolve; });
      const { pass, taken } = this.#offered;
      this.#offered = this.#waiting = null;
      taken();
      pass();
    }
  }
}
