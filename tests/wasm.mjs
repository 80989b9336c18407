// Tests bindings/wasm over a module: `node tests/wasm.mjs MODULE.wasm EXAMPLES CASES LETTER`.
// MODULE.wasm is the library; EXAMPLES the folder of worked examples; CASES a file of random streams with what the library for
// x86-64 decodes from each (tests/cases.c); LETTER the folder of a page and its stream.
import assert from "node:assert/strict";
import { readFileSync, readdirSync } from "node:fs";
import { pathToFileURL } from "node:url";
import { T85Error, load, rowBytes } from "../bindings/wasm/t85.mjs";

const [module, examples, cases, letter] = process.argv.slice(2);
const t85 = await load(readFileSync(module));
const white = Uint8Array.of(0), black = Uint8Array.of(255);
const stream = (width, height, options, ...code) => {
  const bytes = new Uint8Array(20 + code.length), view = new DataView(bytes.buffer);
  bytes.set([0, 0, 1, 0]);
  [width, height, 128].forEach((word, i) => view.setUint32(4 + 4 * i, word));
  bytes[19] = options;
  bytes.set(code, 20);
  return bytes;
};
const error = (number) => (thrown) => thrown instanceof T85Error && thrown.number === number && thrown.text === t85.message(number);

/** Decodes in pieces of this length. */
async function inPieces(bytes, length, limits) {
  const decoder = t85.decoder(limits), rows = [], writer = decoder.writable.getWriter();
  const reading = (async () => { for await (const row of decoder.readable) rows.push(...row); })();
  const writing = (async () => {
    for (let at = 0; at < bytes.length; at += length) await writer.write(bytes.subarray(at, at + length));
    await writer.close();
  })();
  const [read] = await Promise.allSettled([reading, writing]);
  return { rows, header: decoder.header, height: decoder.height, error: read.reason };
}

// Each call with a valid argument and a rejected one.
assert.equal(t85.version(), "1.0.0");
assert.equal(t85.message(9), "input ends too early");
assert.throws(() => t85.message(256), RangeError);
assert.equal(rowBytes(9), 2);
const sound = stream(8, 1, 8, 0xf8, 0xff, 2);
assert.deepEqual(t85.encode(black, 8, 1), sound);
assert.deepEqual(t85.encode(white, 8, 1, { typical: false }), stream(8, 1, 0, 0x60, 0xff, 2));
assert.deepEqual(t85.encode(white, 8, 1, { comment: new TextEncoder().encode("hi") }), stream(8, 1, 8, 0xff, 7, 0, 0, 0, 2, 0x68, 0x69, 0xff, 2));
assert.deepEqual(t85.encode(Uint8Array.of(0x80), 1, 1, { typical: false, announcedHeight: 5 }), stream(1, 5, 0x20, 0xc0, 0xff, 2, 0xff, 5, 0, 0, 0, 1, 0xff, 2));
assert.throws(() => t85.encode(black, 8, 1, { announcedHeight: 1, stripeRows: 0 }), RangeError);
assert.throws(() => t85.encode(Uint8Array.of(0, 0), 8, 2, { announcedHeight: 1 }), error(23));
for (const [words, kind] of [[["x", 8, 1], TypeError], [[black, "8", 1], TypeError], [[black, 9, 1], RangeError], [[black, 0, 1], RangeError],
  [[black, 8, 1.5], RangeError], [[black, 8, 1, { stripes: 1 }], TypeError], [[black, 8, 1, { reset: 1 }], TypeError], [[black, 8, 1, null], TypeError]]) {
  assert.throws(() => t85.encode(...words), kind);
}
assert.deepEqual(t85.decode(sound), { width: 8, height: 1, rows: black });
assert.deepEqual(t85.header(sound), { width: 8, height: 1, stripeRows: 128, mostOffset: 0, options: 8 });
assert.equal(t85.info(sound).length, 23);
assert.deepEqual([...t85.parts(sound)], [{ kind: "header", offset: 0, length: 20, stripe: 0 }, { kind: "data entity", offset: 20, length: 3, stripe: 0 }]);
for (const call of [(it) => t85.decode(it), (it) => t85.header(it), (it) => t85.info(it), (it) => [...t85.parts(it)]]) {
  assert.throws(() => call("stream"), TypeError);
  assert.throws(() => call(sound.subarray(0, 19)), error(1));
}
assert.throws(() => [...t85.parts(sound.subarray(0, 22))], (it) => error(9)(it) && it.offset === 20 && it.stripe === 0);
// Two rows, of which three code bytes determine the first.
assert.throws(() => t85.decode(stream(8, 2, 0, 0xf0, 0, 0)), (it) => error(9)(it) && it.rows.height === 1 && it.rows.rows[0] === 255);
assert.throws(() => t85.decode(sound, { rows: 1 }), TypeError);
assert.throws(() => t85.decode(sound, { maxRows: -1 }), RangeError);
assert.throws(() => t85.decode(sound, { maxRows: 0 }), error(24));
assert.throws(() => t85.decode(sound, { maxBytes: 0 }), error(18));
// 22 bytes that announce 2^32 - 1 rows of 128 KiB.
assert.throws(() => t85.decode(stream(1 << 20, 0xffffffff, 8, 0xff, 2)), error(18));
await assert.rejects(load(3), TypeError);
assert.equal((await load(pathToFileURL(module))).version(), "1.0.0");
assert.throws(() => t85.decoder({ maxRows: "1" }), TypeError);
assert.ok((await inPieces(stream(8, 2, 0, 0xf0, 0, 0), 1)).error instanceof T85Error);

// PBM images.
assert.deepEqual(t85.readPbm(new TextEncoder().encode("P1\n3 2\n1 1 1\n111\n")), { width: 3, height: 2, rows: Uint8Array.of(0xe0, 0xe0) });
assert.deepEqual(t85.readPbm(Uint8Array.of(...new TextEncoder().encode("P4\n#x\n3 1\n"), 255, 7)), { width: 3, height: 1, rows: Uint8Array.of(0xe0) });
for (const [text, number] of [["P5\n1 1\n", 31], ["P4 x", 32], ["P4 0 1 ", 33], ["P4 1048577 1\n", 34], ["P1 1", 36], ["P1 1 1 2", 38]]) {
  assert.throws(() => t85.readPbm(new TextEncoder().encode(text)), error(number));
}
assert.throws(() => t85.readPbm("P4"), TypeError);

// The worked examples and a page, each with all its beginnings, whole and in pieces.
const streams = [...readdirSync(examples).map((name) => readFileSync(`${examples}/${name}`)), readFileSync(`${letter}/letter.jbg`)];
let beginnings = 0;
for (const bytes of streams) {
  for (let length = 0; length <= bytes.length; length += 1) {
    const some = bytes.subarray(0, length), pieces = await inPieces(some, 1 + (length % 7));
    let whole;
    try {
      whole = t85.decode(some);
    } catch (thrown) {
      whole = { ...(thrown.rows ?? { rows: [] }), number: thrown.number };
    }
    assert.equal(pieces.error?.number, whole.number);
    const rows = whole.number === undefined ? pieces.rows.slice(0, whole.rows.length) : pieces.rows;
    assert.deepEqual(rows, [...whole.rows]);
    beginnings += 1;
  }
}
const page = t85.readPbm(readFileSync(`${letter}/letter.pbm`));
assert.deepEqual(t85.decode(readFileSync(`${letter}/letter.jbg`)), page);
assert.deepEqual(t85.encode(page.rows, page.width, page.height, { mostOffset: 127 }), new Uint8Array(readFileSync(`${letter}/letter.jbg`)));

// Random streams, as the library for x86-64 decodes them.
const bytes = readFileSync(cases);
let at = 0, count = 0;
const word = () => bytes.readUInt32LE((at += 4) - 4);
const part = (length) => bytes.subarray(at, (at += length));
while (at < bytes.length) {
  const given = part(word()), status = word(), written = word(), row = word(), rows = part(written * row);
  let found;
  try {
    found = { status: 0, ...t85.decode(given, { maxRows: 1000 }) };
  } catch (thrown) {
    found = { status: thrown.number, ...(thrown.rows ?? { height: 0, rows: new Uint8Array(0) }) };
  }
  assert.deepEqual([found.status, found.height, Buffer.from(found.rows)], [status, written, rows], given.toString("hex"));
  count += 1;
}
console.log(`wasm: ${streams.length} streams with ${beginnings} beginnings, ${count} random streams, no difference`);
