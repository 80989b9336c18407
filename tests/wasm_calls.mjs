// Calls each function of a module as JavaScript without bindings/wasm would, once with a valid and once with a rejected argument:
// `node tests/wasm_calls.mjs MODULE.wasm NAMES`. NAMES is t85.map. Streams are worked examples of docs/EXAMPLES.md.
import assert from "node:assert/strict";
import { readFileSync } from "node:fs";

const [module, names] = process.argv.slice(2);
const { memory, ...calls } = (await WebAssembly.instantiate(readFileSync(module), {})).instance.exports;
const isWide = typeof calls.t85_window_bytes(8) === "bigint", called = new Set();
// The kinds of each function's parameters: a pointer or a length, or a number of 32 bits.
const KINDS = {
  t85_version: "", t85_window_bytes: "w", t85_message: "wpp", t85_header: "ppp", t85_info: "ppp", t85_stream_facts: "ppp", t85_next_part: "ppp",
  t85_encode: "wwppppppppppp", t85_encode_bound: "wwpp", t85_decode: "ppwppppp", t85_decode_rows: "ppwpppppp", t85_decode_start: "ppw",
  t85_decode_bytes: "ppppppp", t85_decode_end: "pppp", t85_decode_again: "ppp", t85_decode_rest: "pppp", t85_decode_height: "p", t85_decode_certain: "p", t85_encode_start: "ppwwpppppppp",
  t85_encode_row: "pppppppp", t85_encode_offset: "pw", t85_best_offset: "pppppppp", t85_choice_start: "ppwp", t85_choice_row: "ppppp",
  t85_choice_offset: "pwp", t85_encode_end: "pppppp", t85_encode_abort: "pppp", t85_encode_rows_left: "p", t85_encode_room: "p",
  t85_pbm_start: "pp", t85_pbm_header: "pppp", t85_pbm_row: "pppppp", t85_pbm_end: "p",
  t85_raw_header: "ppp", t85_set_unused_fields: "ppwww", t85_set_height: "pp",
};
let free = memory.buffer.byteLength;
grow(4);

/** Engines count the pages of a memory of 64 bits in BigInt, older ones in numbers. */
function grow(pages) {
  try {
    memory.grow(isWide ? BigInt(pages) : pages);
  } catch {
    memory.grow(pages);
  }
}

function call(name, ...words) {
  called.add(name);
  const kinds = KINDS[name];
  assert.equal(words.length, kinds.length, name);
  return Number(calls[name](...words.map((word, i) => (isWide && kinds[i] === "p" ? BigInt(word) : word)))) >>> 0;
}

const bytes = (place, count) => new Uint8Array(memory.buffer, place, count);
const word = (place) => new DataView(memory.buffer).getUint32(place, true);

/** Allocates zeroed memory, or memory with these bytes. */
function place(what) {
  const data = typeof what === "number" ? new Uint8Array(what) : Uint8Array.from(what), at = free;
  free += Math.ceil(data.length / 16) * 16 + 16;
  bytes(at, data.length).set(data);
  return at;
}

/** A struct of this many bytes whose first word is its version. */
const struct = (size, version = 1) => place([version, ...new Uint8Array(size - 1)]);
const BLACK = [0, 0, 1, 0, 0, 0, 0, 8, 0, 0, 0, 1, 0, 0, 0, 128, 0, 0, 0, 8, 0xf8, 0xff, 2];
const sound = place(BLACK), window = place(300), written = place(8), row = place(8), taken = place(8), room = place(4096);
const options = () => place([1, 0, 0, 0, 8, 0, 0, 0, 128, ...new Uint8Array(15)]);

assert.equal(call("t85_version"), 0x010000);
assert.deepEqual([call("t85_window_bytes", 9), call("t85_window_bytes", 0)], [6, 0]);
assert.deepEqual([call("t85_message", 9, room, 100), call("t85_message", 200, room, 100)], [20, new TextEncoder().encode("unknown status").length]);
const fields = place(20);
assert.deepEqual([call("t85_header", sound, 23, fields), word(fields), word(fields + 4)], [0, 8, 1]);
assert.equal(call("t85_header", sound, 19, fields), 1);
const raw = place(44), copy = place(BLACK);
assert.deepEqual([call("t85_raw_header", sound, 20, raw), word(raw), word(raw + 20), word(raw + 40)], [0, 8, 1, 8]);
assert.equal(call("t85_raw_header", sound, 19, raw), 1);
assert.deepEqual([call("t85_set_unused_fields", copy, 23, 9, 3, 0x14), ...bytes(copy + 17, 3)], [0, 9, 3, 0x1c]);
assert.equal(call("t85_set_unused_fields", copy, 23, 9, 16, 0), 2);
assert.deepEqual([call("t85_set_height", copy, 23), ...bytes(copy + 8, 4)], [0, 0, 0, 0, 1]);
assert.equal(call("t85_set_height", copy, 19), 1);
const summary = place(56);
assert.deepEqual([call("t85_info", sound, 23, summary), word(summary + 20)], [0, 1]);
assert.equal(call("t85_info", sound, 22, summary), 9);
assert.equal(call("t85_stream_facts", sound, 23, struct(64)), 0);
assert.equal(call("t85_stream_facts", sound, 23, struct(64, 2)), 50);
const part = struct(64);
assert.deepEqual([0, 0, 52].map(() => call("t85_next_part", sound, 23, part)), [0, 0, 52]);
assert.equal(call("t85_next_part", sound, 23, struct(64, 9)), 50);

const rows = place([0xff]);
assert.equal(call("t85_encode", 8, 1, rows, 1, 1, options(), rows, 0, window, 300, room, 4096, written), 0);
assert.deepEqual([word(written), [...bytes(room, 23)]], [23, BLACK]);
assert.equal(call("t85_encode", 0, 1, rows, 1, 1, options(), rows, 0, window, 300, room, 4096, written), 33);
assert.ok(call("t85_encode_bound", 8, 1, options(), 0) >= 23);
assert.equal(call("t85_encode_bound", 0, 1, options(), 0), 0);
assert.equal(call("t85_decode", sound, 23, 1, window, 300, room, 4096, written), 0);
assert.deepEqual([word(written), String.fromCharCode(...bytes(room, 8))], [8, "P4\n8 1\n\xff"]);
assert.equal(call("t85_decode", sound, 23, 0, window, 300, room, 4096, written), 24);
assert.equal(call("t85_decode_rows", sound, 23, 1, 1, window, 300, room, 4096, written), 0);
assert.deepEqual([word(written), bytes(room, 1)[0]], [1, 0xff]);
assert.equal(call("t85_decode_rows", sound, 23, 1, 0, window, 300, room, 4096, written), 51);

const decoder = place(1280);
assert.equal(call("t85_decode_bytes", decoder, sound, 23, window, 300, taken, row), 53);
assert.equal(call("t85_decode_end", decoder, window, 300, row), 53);
assert.equal(call("t85_decode_start", decoder, 1279, 1), 50);
assert.equal(call("t85_decode_start", decoder, 1280, 1), 0);
assert.deepEqual([call("t85_decode_height", decoder), call("t85_decode_certain", decoder)], [0, 0]);
assert.deepEqual([call("t85_decode_bytes", decoder, sound, 23, window, 0, taken, row), word(taken)], [60, 20]);
assert.equal(call("t85_decode_bytes", decoder, sound + 20, 3, window, 2, taken, row), 19);
assert.equal(call("t85_decode_bytes", decoder, sound + 20, 3, window, 3, taken, row), 61);
assert.equal(bytes(window + word(row), 1)[0], 0xff);
assert.equal(call("t85_decode_again", decoder, window, 3), 0);
const left = 3 - word(taken);
if (left > 0) call("t85_decode_bytes", decoder, sound + 23 - left, left, window, 3, taken, row);
assert.equal(call("t85_decode_rest", decoder, sound, 0, taken), 53);
assert.equal(call("t85_decode_end", decoder, window, 3, row), 0);
assert.equal(call("t85_decode_rest", decoder, sound, 23, taken), 0);
assert.equal(word(taken), 0);
assert.deepEqual([call("t85_decode_height", decoder), call("t85_decode_certain", decoder)], [1, 1]);

const encoder = place(5360);
assert.equal(call("t85_encode_row", encoder, rows, 1, window, 300, room, 4096, written), 53);
assert.equal(call("t85_encode_offset", encoder, 0), 53);
assert.equal(call("t85_best_offset", encoder, rows, 1, window, 300, place(300), 300, taken), 53);
assert.equal(call("t85_encode_end", encoder, window, 300, room, 4096, written), 53);
assert.equal(call("t85_encode_abort", encoder, room, 4096, written), 53);
assert.deepEqual([call("t85_encode_rows_left", encoder), call("t85_encode_room", encoder)], [0, 0]);
const start = (size, width) => call("t85_encode_start", encoder, size, width, 1, options(), rows, 0, window, 300, room, 4096, written);
assert.deepEqual([start(4663, 8), start(5361, 8), start(5360, 0)], [50, 50, 33]);
assert.deepEqual([start(5360, 8), word(written), [...bytes(room, 20)]], [0, 20, BLACK.slice(0, 20)]);
assert.equal(call("t85_encode_rows_left", encoder), 1);
assert.ok(call("t85_encode_room", encoder) > 0);
assert.deepEqual([call("t85_encode_offset", encoder, 3), call("t85_encode_offset", encoder, 0)], [22, 0]);
assert.equal(call("t85_best_offset", encoder, rows, 1, window, 300, place(300), 300, taken), 0);
assert.deepEqual([call("t85_encode_row", encoder, rows, 0, window, 300, room, 4096, written), call("t85_encode_row", encoder, rows, 1, window, 300, room, 4096, written)], [55, 0]);
const body = [...bytes(room, word(written))];
assert.equal(call("t85_encode_end", encoder, window, 300, room, 4096, written), 0);
assert.deepEqual([...body, ...bytes(room, word(written))], BLACK.slice(20));
assert.equal(call("t85_encode_end", encoder, window, 300, room, 4096, written), 54);
assert.deepEqual([start(5360, 8), call("t85_encode_abort", encoder, room, 1, written), call("t85_encode_abort", encoder, room, 2, written)], [0, 18, 0]);
assert.deepEqual([word(written), ...bytes(room, 2)], [2, 0xff, 4]);

const choice = place(528), above = place(1);
assert.deepEqual([call("t85_choice_row", choice, rows, 1, above, 1), call("t85_choice_offset", choice, 0, taken)], [53, 53]);
assert.deepEqual([call("t85_choice_start", choice, 527, 8, options()), call("t85_choice_start", choice, 528, 8, options())], [50, 0]);
assert.deepEqual([call("t85_choice_row", choice, rows, 0, above, 1), call("t85_choice_row", choice, rows, 1, above, 1)], [55, 0]);
bytes(taken, 1)[0] = 77;
assert.deepEqual([call("t85_choice_offset", choice, 3, taken), bytes(taken, 1)[0], call("t85_choice_offset", choice, 0, taken), bytes(taken, 1)[0]], [22, 77, 0, 0]);

const pbm = place(64), text = place(new TextEncoder().encode("P1 3 1 1 1 0"));
assert.deepEqual([call("t85_pbm_header", pbm, text, 12, taken), call("t85_pbm_row", pbm, text, 12, room, 1, taken), call("t85_pbm_end", pbm)], [53, 53, 53]);
assert.deepEqual([call("t85_pbm_start", pbm, 63), call("t85_pbm_start", pbm, 64)], [50, 0]);
assert.deepEqual([call("t85_pbm_header", pbm, text, 12, taken), word(taken), word(pbm + 8), word(pbm + 12)], [60, 7, 3, 1]);
assert.deepEqual([call("t85_pbm_row", pbm, text + 7, 5, room, 0, taken), call("t85_pbm_end", pbm)], [55, 36]);
assert.deepEqual([call("t85_pbm_row", pbm, text + 7, 5, room, 1, taken), bytes(room, 1)[0], call("t85_pbm_end", pbm)], [61, 0xc0, 0]);

const wanted = [...readFileSync(names, "utf8").matchAll(/^ *(t85_\w+);/gm)].map((found) => found[1]);
assert.deepEqual([...called].sort(), wanted.sort());
console.log(`wasm: ${wanted.length} functions, each with a valid and a rejected argument`);
