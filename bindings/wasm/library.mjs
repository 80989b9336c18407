// The calls of t85.h over the module's memory. Buffers lie behind the memory that the module itself uses; each call of a method
// here uses them anew, and the memory grows as they need it.

import { STATUS } from "./values.mjs";

const WASM_PAGE = 65536, ALIGNMENT = 16, PBM_BYTES = 64;
// The parameters of each call: `p` is a pointer or a length, which has the width of the memory; `w` is another number. The last
// letter is the result's.
const CALLS = {
  t85_version: "w", t85_message: "wppp", t85_window_bytes: "wp", t85_header: "pppw", t85_info: "pppw", t85_stream_facts: "pppw",
  t85_next_part: "pppw", t85_decode_start: "ppww", t85_decode_bytes: "pppppppw", t85_decode_end: "ppppw", t85_decode_height: "pw",
  t85_decode_certain: "pw", t85_decode_again: "pppw", t85_encode: "wwppppppppppppw", t85_pbm_start: "ppw", t85_pbm_header: "ppppw", t85_pbm_row: "ppppppw",
  t85_pbm_end: "pw",
};

export class Library {
  call = {};
  isWide;
  #memory;
  #first;
  #end;

  constructor(instance) {
    const { memory, ...calls } = instance.exports;
    this.#memory = memory;
    this.#first = this.#end = memory.buffer.byteLength;
    // With a memory of 64 bits, pointers and lengths are BigInt.
    this.isWide = typeof calls.t85_window_bytes(8) === "bigint";
    for (const [name, kinds] of Object.entries(CALLS)) {
      const isBig = [...kinds].map((kind) => this.isWide && kind === "p");
      this.call[name] = (...words) => Number(calls[name](...words.map((word, i) => (isBig[i] ? BigInt(word) : word)))) >>> 0;
    }
  }

  /** Runs `work` with a function that allocates zeroed bytes and returns their place, or the place of a copy of bytes. */
  #using(work) {
    this.#end = this.#first;
    return work((what) => {
      const size = typeof what === "number" ? what : what.length, place = this.#end;
      this.#end += Math.ceil(size / ALIGNMENT) * ALIGNMENT;
      this.#grow(Math.ceil((this.#end - this.#memory.buffer.byteLength) / WASM_PAGE));
      if (typeof what === "number") this.#bytes(place, size).fill(0);
      else this.#bytes(place, size).set(what);
      return place;
    });
  }

  #grow(pages) {
    if (pages <= 0) return;
    try {
      this.#memory.grow(this.isWide ? BigInt(pages) : pages);
    } catch (error) {
      // Engines from before memories of 64 bits were standard count their pages in numbers.
      if (!(error instanceof TypeError)) throw error;
      this.#memory.grow(pages);
    }
  }

  #bytes(place, size) {
    return new Uint8Array(this.#memory.buffer, place, size);
  }

  #words(place, count) {
    return new Uint32Array(this.#memory.buffer, place, count);
  }

  #size(place) {
    return this.isWide ? Number(new BigUint64Array(this.#memory.buffer, place, 1)[0]) : this.#words(place, 1)[0];
  }

  message(status) {
    return this.#using((place) => {
      const text = place(256), length = this.call.t85_message(status, text, 256);
      return new TextDecoder().decode(this.#bytes(text, Math.min(length, 256)).slice());
    });
  }

  windowBytes(width) {
    return this.call.t85_window_bytes(width);
  }

  header(stream) {
    return this.#using((place) => {
      const from = place(stream), fields = place(20);
      const status = this.call.t85_header(from, stream.length, fields);
      const [width, height, stripeRows, mostOffset, options] = this.#words(fields, 5);
      return { status, width, height, stripeRows, mostOffset, options };
    });
  }

  facts(stream) {
    return this.#using((place) => {
      const from = place(stream), facts = place(64);
      this.#words(facts, 1)[0] = 1;
      const status = this.call.t85_stream_facts(from, stream.length, facts);
      const [, width, height, stripeRows, mostOffset, options, imageHeight, entities] = this.#words(facts, 8);
      const [moves, comments] = [...new BigUint64Array(this.#memory.buffer, facts + 32, 2)].map(Number);
      const length = this.#size(facts + 48);
      return { status, width, height, stripeRows, mostOffset, options, imageHeight, entities, moves, comments, length };
    });
  }

  /** The state of a walk through the parts, before the first one. */
  walk() {
    const state = new Uint8Array(64);
    new DataView(state.buffer).setUint32(0, 1, true);
    return state;
  }

  nextPart(stream, state) {
    return this.#using((place) => {
      const from = place(stream), part = place(state);
      const status = this.call.t85_next_part(from, stream.length, part);
      state.set(this.#bytes(part, state.length));
      const step = this.isWide ? 8 : 4;
      const offset = this.#size(part + 8), length = this.#size(part + 8 + step);
      return { status, kind: this.#words(part, 2)[1], offset, length, stripe: this.#words(part + 8 + 2 * step, 1)[0] };
    });
  }

  encoded({ width, height, rows, numbers, comment }, room) {
    return this.#using((place) => {
      const options = place(24), written = place(8), windowLength = this.windowBytes(width), window = place(windowLength);
      const from = place(rows), text = place(comment ?? 0), to = place(room);
      this.#words(options, 5).set([1, numbers.options, numbers.stripeRows, numbers.mostOffset, numbers.announcedHeight]);
      this.#bytes(options + 20, 3).set([numbers.announcesHeight, numbers.reset, comment !== null]);
      const words = [from, rows.length, Math.ceil(width / 8), options, text, comment?.length ?? 0, window, windowLength, to, room, written];
      const status = this.call.t85_encode(width, height, ...words);
      return { status, stream: this.#bytes(to, this.#size(written)).slice() };
    });
  }

  startedDecoder(size, maxRows) {
    return this.#using((place) => {
      const decoder = place(size);
      this.call.t85_decode_start(decoder, size, maxRows);
      return this.#bytes(decoder, size).slice();
    });
  }

  heightOf(state) {
    return this.#using((place) => this.call.t85_decode_height(place(state)));
  }

  /** Passes bytes, or the end, until something other than a row is returned, or `most` rows are. */
  decoded(state, window, piece, isAll, most) {
    return this.#using((place) => {
      const decoder = place(state), memory = place(window), from = place(piece), taken = place(8), row = place(8);
      const rowLength = window.length / 3, rows = [];
      let sum = 0, status;
      do {
        status = isAll
          ? this.call.t85_decode_end(decoder, memory, window.length, row)
          : this.call.t85_decode_bytes(decoder, from + sum, piece.length - sum, memory, window.length, taken, row);
        sum += isAll ? 0 : this.#size(taken);
        if (status === STATUS.ROW) rows.push(this.#bytes(memory + this.#size(row), rowLength).slice());
      } while (status === STATUS.ROW && rows.length < most);
      state.set(this.#bytes(decoder, state.length));
      window.set(this.#bytes(memory, window.length));
      return { status, taken: sum, rows };
    });
  }

  /** Reads a PBM: `begin` is called with its size, and `put` with each row. Returns the status. */
  pbm(bytes, begin, put) {
    return this.#using((place) => {
      const pbm = place(PBM_BYTES), from = place(bytes), taken = place(8);
      this.call.t85_pbm_start(pbm, PBM_BYTES);
      let status = this.call.t85_pbm_header(pbm, from, bytes.length, taken), sum = this.#size(taken);
      if (status === STATUS.HEADER_READ) {
        const [width, height] = this.#words(pbm + 8, 2), length = Math.ceil(width / 8), row = place(length);
        begin(width, height);
        do {
          status = this.call.t85_pbm_row(pbm, from + sum, bytes.length - sum, row, length, taken);
          sum += this.#size(taken);
          if (status === STATUS.ROW) put(this.#bytes(row, length).slice());
        } while (status === STATUS.ROW);
      }
      return status === STATUS.MORE ? this.call.t85_pbm_end(pbm) : status;
    });
  }
}
