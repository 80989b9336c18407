/** An image: packed rows one behind the other, the first pixel of a row in the most significant bit of its first byte. */
export interface Image {
  width: number;
  height: number;
  rows: Uint8Array;
}

/** How an image is encoded; the defaults are those of `pbmtojbg85`. */
export interface Options {
  /** Rows in a stripe, at least 1 (128). */
  stripeRows?: number;
  /** Greatest offset of the adaptive template pixel, 0 to 127 (0). */
  mostOffset?: number;
  /** Use the two-line template (false). */
  twoLines?: boolean;
  /** Use typical prediction (true). */
  typical?: boolean;
  /** The option VLENGTH, which `announcedHeight` also sets (false). */
  variableHeight?: boolean;
  /** The height in the header; a lower actual height follows the last row. */
  announcedHeight?: number | null;
  /** Code each stripe independently of those before it (false). */
  reset?: boolean;
  /** The bytes of a comment. */
  comment?: BufferSource | null;
}

/** The largest image that is decoded: by default 2^32 - 1 rows of 1 GiB together. */
export interface Limits {
  maxRows?: number;
  /** `Infinity` means no limit. */
  maxBytes?: number;
}

export interface Header {
  width: number;
  height: number;
  stripeRows: number;
  mostOffset: number;
  options: number;
}

export interface Info extends Header {
  /** The actual height. */
  imageHeight: number;
  /** Stripe data entities, one per stripe. */
  entities: number;
  /** Moves of the adaptive template pixel. */
  moves: number;
  comments: number;
  /** The length of the stream in bytes. */
  length: number;
}

export interface Part {
  kind: "header" | "comment" | "move" | "new height" | "data entity";
  offset: number;
  length: number;
  /** The number of stripes before the part. */
  stripe: number;
}

/** An error of the library. */
export class T85Error extends Error {
  /** The status in t85.h. */
  number: number;
  text: string;
  /** The certain rows of a broken stream, if `decode` raised the error. */
  rows: Image | null;
  /** Where the broken part begins, and its stripe, if `parts` raised the error. */
  offset?: number;
  stripe?: number;
}

/** Pieces of a stream in, packed rows out, for `pipeThrough`. Rows are decoded as they are read. While a height may arrive late, rows
    may come that it cuts off. */
export interface Decoder extends ReadableWritablePair<Uint8Array, BufferSource> {
  /** Set once 20 bytes were decoded. */
  readonly header: Header | null;
  /** The current height; right once `readable` has ended. */
  readonly height: number;
}

/** The calls. An argument of another type raises a TypeError, and one out of range a RangeError, before any call of the library. */
export interface T85 {
  readonly is64Bit: boolean;
  version(): string;
  message(status: number): string;
  encode(rows: BufferSource, width: number, height: number, options?: Options): Uint8Array;
  decode(stream: BufferSource, limits?: Limits): Image;
  decoder(limits?: Limits): Decoder;
  header(stream: BufferSource): Header;
  info(stream: BufferSource): Info;
  parts(stream: BufferSource): Generator<Part, void, undefined>;
  readPbm(bytes: BufferSource, limits?: Pick<Limits, "maxBytes">): Image;
}

/** Returns the calls of a module: its bytes, a compiled module, or the URL of its bytes. */
export function load(source: BufferSource | WebAssembly.Module | URL | string): Promise<T85>;

/** The number of bytes in a row. */
export function rowBytes(width: number): number;

export const PARTS: readonly Part["kind"][];
