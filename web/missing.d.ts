// What browsers and node have and tsc 4.8 doesn't know. Debian has no types of node. Nothing of this is sent.

interface Array<T> {
  findLast(isWanted: (item: T, index: number) => boolean): T | undefined;
}

interface Uint8Array {
  findLastIndex(isWanted: (item: number, index: number) => boolean): number;
}

declare var CompressionStream: {
  new (format: 'deflate'): ReadableWritablePair<Uint8Array, Uint8Array>;
};

declare function setImmediate(work: (value: void) => void): void;

declare class Buffer extends Uint8Array {
  static byteLength(text: string): number;
  static from(bytes: Uint8Array): Buffer;
  readUInt16BE(at: number): number;
  readUInt32BE(at: number): number;
  subarray(start: number, end?: number): Buffer;
  toString(encoding?: 'latin1'): string;
}

declare module 'node:assert/strict' {
  type Wanted = object | ((error: unknown) => boolean);
  const assert: {
    deepEqual(got: unknown, wanted: unknown, message?: string): void;
    equal(got: unknown, wanted: unknown, message?: string): void;
    fail(message: string): never;
    match(got: string, wanted: RegExp): void;
    notDeepEqual(got: unknown, wanted: unknown): void;
    notEqual(got: unknown, wanted: unknown): void;
    ok(value: unknown, message?: string): asserts value;
    rejects(work: Promise<unknown>, wanted: Wanted): Promise<void>;
    throws(work: () => unknown, wanted: Wanted): void;
  };
  export default assert;
}

declare module 'node:fs' {
  export function existsSync(path: URL): boolean;
  export function readFileSync(path: URL, encoding: 'utf8'): string;
  export function readdirSync(path: URL): string[];
}

declare module 'node:test' {
  type Work = () => void | Promise<void>;
  export function beforeEach(work: Work): void;
  export function test(name: string, work: Work): void;
  export function test(name: string, options: { timeout: number }, work: Work): void;
}

declare module 'node:zlib' {
  export function inflateSync(bytes: Uint8Array): Buffer;
}
