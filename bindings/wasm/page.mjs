// The page that shows a stream. `WASM` is the proved module in base64, and `WASM32` one with a 32-bit memory that is not proved, if
// the page was made with one.
import { PARTS, T85Error, load, rowBytes } from "./t85.mjs";

const WASM = "/* WASM */", WASM32 = "/* WASM32 */";
// Limits of the page: pixels of an image, bytes of rows, the sides and the area of the canvas, and lines of a table.
const MOST_PIXELS = 2 ** 33, MOST_BYTES = 2 ** 28, MOST_SIDE = 16384, MOST_AREA = 2 ** 26, MOST_LINES = 500;
const OPTIONS = [[0x40, "two-line template"], [0x20, "variable height"], [0x08, "typical prediction"]];
const $ = (id) => document.getElementById(id);
const t85 = await opened();
let shown = null, zoom = 0;

/** Loads the module; without 64-bit memories, says so. */
async function opened() {
  try {
    return await loaded(WASM, "compiled to WebAssembly from the proved source by the prover's own compiler");
  } catch (error) {
    say(`This browser cannot run the proved library, which needs WebAssembly with 64-bit memories; current versions of Chromium and Firefox have them: ${error.message}`, true);
    $("file").disabled = true;
    if (WASM32 === "") throw error;
    $("unproved").hidden = false;
    await new Promise((resolve) => { $("unproved").onclick = resolve; });
    $("unproved").hidden = true;
    $("file").disabled = false;
    say("No file is open.");
    return loaded(WASM32, "the same source without its contracts, compiled for 32-bit memories. It is not proved; rustc, its library, the exporter and the hand-written crates are trusted instead of the kit");
  }
}

async function loaded(base64, origin) {
  const library = await load(Uint8Array.from(atob(base64), (letter) => letter.charCodeAt(0)));
  $("about").textContent = `libt85 ${library.version()}: ${origin}.`;
  return library;
}

function say(text, isBroken = false) {
  $("state").className = isBroken ? "broken" : "";
  $("state").textContent = text;
}

const counted = (number, what) => `${number.toLocaleString("en")} ${what}${number === 1 ? "" : "s"}`;

function fill(table, lines, hidden = 0) {
  const body = $(table).tBodies[0];
  body.textContent = "";
  $(table).hidden = lines.length === 0;
  for (const cells of hidden ? [...lines, [`and ${hidden} more`]] : lines) {
    const row = body.insertRow();
    cells.forEach((cell, i) => {
      const place = row.appendChild(document.createElement(i === 0 ? "th" : "td"));
      if (i === 0) place.scope = "row";
      place.textContent = typeof cell === "number" ? cell.toLocaleString("en") : cell;
      if (typeof cell === "number") place.className = "number";
    });
  }
}

/** The parts of a stream, its stripes, and the error that ends them. */
function walked(stream) {
  const parts = [], stripes = [];
  let hidden = 0, begin = 20, offset = "", broken = null;
  try {
    for (const part of t85.parts(stream)) {
      if (parts.length < MOST_LINES) parts.push([part.kind, part.offset, part.length, part.stripe]);
      else hidden += 1;
      // The library has read the segment: this is the byte of the offset in it.
      if (part.kind === PARTS[2]) offset = stream[part.offset + part.length - 2];
      if (part.kind !== PARTS[4]) continue;
      if (stripes.length < MOST_LINES) stripes.push([part.stripe, begin, part.offset + part.length, offset]);
      begin = part.offset + part.length;
      offset = "";
    }
  } catch (error) {
    if (!(error instanceof T85Error)) throw error;
    broken = error;
    parts.push([`error: ${error.text}`, error.offset, "", error.stripe]);
  }
  return { parts, stripes, hidden, broken };
}

function facts(stream, header, found) {
  const lines = [["bytes", stream.length], ["width", header.width], ["height in the header", header.height], ["rows in a stripe", header.stripeRows],
    ["greatest offset", header.mostOffset], ["options", OPTIONS.filter(([bit]) => header.options & bit).map(([, name]) => name).join(", ") || "none"]];
  if (found) {
    lines.push(["actual height", found.imageHeight], ["stripes", found.entities], ["moves of the adaptive pixel", found.moves], ["comments", found.comments]);
    if (found.length < stream.length) lines.push(["bytes behind the stream", stream.length - found.length]);
  }
  return lines;
}

/** The facts of a stream, or null if it is broken. */
function found(stream) {
  try {
    return t85.info(stream);
  } catch (error) {
    if (error instanceof T85Error) return null;
    throw error;
  }
}

function show(name, stream, source = null) {
  const header = t85.header(stream), facts_ = found(stream), height = facts_?.imageHeight ?? header.height;
  const walk = walked(stream), size = `${counted(header.width, "pixel")} by ${counted(height, "row")}`;
  fill("facts", facts(stream, header, facts_));
  fill("parts", walk.parts, walk.hidden);
  fill("stripes", walk.stripes.map(([stripe, from, to, offset]) => [stripe, stripe * header.stripeRows, to - from, offset === "" ? "–" : offset]));
  shown = { name, stream, source, width: header.width, height, certain: 0, rows: new Uint8Array(0) };
  $("encoding").hidden = source === null;
  $("view").hidden = true;
  if (header.width * height > MOST_PIXELS && facts_) return say(`${name}: an image of ${size}. It is too large to be drawn.`);
  try {
    const image = t85.decode(stream, { maxBytes: MOST_BYTES });
    Object.assign(shown, { rows: image.rows, certain: image.height, height: image.height });
    say(`${name}: ${size}, complete.`);
  } catch (error) {
    if (!(error instanceof T85Error)) throw error;
    if (!error.rows?.height) return say(`${name}: an image of ${size}. No row can be drawn: ${error.text}.`, true);
    Object.assign(shown, { rows: error.rows.rows, certain: error.rows.height });
    say(`${name}: an image of ${size}. It is broken: ${error.text}. ${counted(error.rows.height, "row")} can be recovered; the rest is hatched.`, true);
  }
  // Of a broken image whose height is not known, as much is hatched as is drawn.
  if (shown.certain < shown.height) shown.height = Math.min(shown.height, Math.max(2 * shown.certain, facts_ ? shown.height : 0, 64));
  $("view").hidden = false;
  zoom = 0;
  draw();
}

/** The scale at which the image is drawn: 1 / n, or n. 0 as zoom fits it into the page. */
function scale() {
  const { width, height } = shown, fits = Math.ceil(Math.max(width / Math.max(200, $("scroll").clientWidth), height / 1200, 1));
  const least = Math.max(Math.ceil(Math.max(width, height) / MOST_SIDE), Math.ceil(Math.sqrt((width * height) / MOST_AREA)), 1);
  const wanted = zoom === 0 ? 1 / fits : zoom;
  return wanted < 1 ? 1 / Math.max(least, Math.round(1 / wanted)) : least > 1 ? 1 / least : wanted;
}

function draw() {
  const { width, height, certain } = shown, at = scale(), step = at < 1 ? Math.round(1 / at) : 1, canvas = $("canvas");
  canvas.width = Math.ceil(width / step);
  canvas.height = Math.ceil(height / step);
  canvas.style.width = `${canvas.width * Math.max(1, at)}px`;
  canvas.setAttribute("aria-label", `${shown.name}: ${counted(width, "pixel")} by ${counted(height, "row")}, ${counted(certain, "row")} of which are drawn`);
  $("zoom").textContent = `${at < 1 ? `1 : ${step}` : `${at} : 1`}`;
  $("fit").setAttribute("aria-pressed", String(zoom === 0));
  $("full").setAttribute("aria-pressed", String(zoom === 1));
  const context = canvas.getContext("2d");
  for (let top = 0; top < canvas.height; top += 128) {
    const band = context.createImageData(canvas.width, Math.min(128, canvas.height - top));
    for (let y = 0; y < band.height; y += 1) shade(new Uint32Array(band.data.buffer, 4 * y * canvas.width, canvas.width), top + y, step);
    context.putImageData(band, 0, top);
  }
}

/** Draws one line of the canvas: the share of white in each square of `step` pixels, or a hatch below the certain rows. */
function shade(line, y, step) {
  const { width, height, certain, rows } = shown, length = rowBytes(width), last = Math.min((y + 1) * step, height, certain);
  for (let x = 0; x < line.length; x += 1) {
    const end = Math.min((x + 1) * step, width);
    let black = 0;
    for (let row = y * step; row < last; row += 1) for (let at = x * step; at < end; at += 1) black += (rows[row * length + (at >> 3)] >> (7 - (at & 7))) & 1;
    const area = (end - x * step) * (last - y * step);
    const grey = area > 0 ? 255 - Math.round((255 * black) / area) : ((x + y) >> 3) % 2 ? 205 : 175;
    line[x] = 0xff000000 | (grey << 16) | (grey << 8) | grey;
  }
}

const number = (id) => ($(id).value === "" ? null : Number($(id).value));
const chosen = () => ({
  stripeRows: number("stripeRows") ?? 128, mostOffset: number("mostOffset") ?? 0, announcedHeight: number("announcedHeight"),
  comment: $("comment").value === "" ? null : new TextEncoder().encode($("comment").value),
  ...Object.fromEntries(["twoLines", "typical", "variableHeight", "reset"].map((id) => [id, $(id).checked])),
});

function encode(name, image) {
  const stem = name.replace(/\.pbm$/i, "");
  show(`${stem}.jbg`, t85.encode(image.rows, image.width, image.height, chosen()), { name, image });
}

/** Opens a file: as a PBM if the library reads its header, otherwise as a stream. */
async function open(file) {
  const bytes = new Uint8Array(await file.arrayBuffer());
  for (const table of ["facts", "parts", "stripes"]) fill(table, []);
  $("view").hidden = $("encoding").hidden = true;
  try {
    if (/\.pbm$/i.test(file.name)) encode(file.name, t85.readPbm(bytes, { maxBytes: MOST_BYTES }));
    else show(file.name, bytes);
  } catch (error) {
    say(`${file.name}: ${error.message}.`, true);
  }
  document.body.dataset.shown = file.name;
}

function save(ending, data) {
  const link = document.createElement("a");
  link.href = URL.createObjectURL(data instanceof Blob ? data : new Blob([data]));
  link.download = shown.name.replace(/\.jbg$/i, "") + ending;
  link.click();
  setTimeout(() => URL.revokeObjectURL(link.href), 1000);
}

const zoomed = (to) => { zoom = to; draw(); };
const stepped = (up) => { const at = scale(); zoomed(up ? (at < 1 ? 1 / Math.max(1, Math.round(1 / at) - 1) : Math.min(8, at + 1)) : at > 1 ? at - 1 : 1 / (Math.round(1 / at) + 1)); };
$("fit").onclick = () => zoomed(0);
$("full").onclick = () => zoomed(1);
$("more").onclick = () => stepped(true);
$("less").onclick = () => stepped(false);
$("jbg").onclick = () => save(".jbg", shown.stream);
$("pbm").onclick = () => save(".pbm", new Blob([`P4\n${shown.width} ${shown.certain}\n`, shown.rows]));
$("png").onclick = () => $("canvas").toBlob((blob) => save(".png", blob));
$("file").onchange = (event) => event.target.files[0] && open(event.target.files[0]);
$("options").onsubmit = (event) => {
  event.preventDefault();
  try {
    encode(shown.source.name, shown.source.image);
  } catch (error) {
    say(`${shown.source.name}: ${error.message}.`, true);
  }
};
window.addEventListener("resize", () => shown && zoom === 0 && !$("view").hidden && draw());
for (const kind of ["dragover", "dragleave", "drop"]) {
  document.addEventListener(kind, (event) => {
    event.preventDefault();
    document.body.classList.toggle("over", kind === "dragover");
    if (kind === "drop" && event.dataTransfer.files[0]) open(event.dataTransfer.files[0]);
  });
}
document.body.dataset.ready = "yes";
