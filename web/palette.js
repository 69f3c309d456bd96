// The lights of the sixteen colours, and how cells become pixels.

/**
 * Red, green and blue of the colours 0 to 15: the palette of cam6_draw.
 * @type {ReadonlyArray<readonly [number, number, number]>}
 */
export const PALETTE = Object.freeze([
  [0x00, 0x00, 0x00], [0xff, 0xd2, 0x3f], [0x3f, 0xa7, 0xff], [0x9b, 0xe5, 0x64],
  [0xee, 0x42, 0x66], [0xff, 0x8c, 0x42], [0xb3, 0x88, 0xeb], [0xff, 0xb3, 0xc6],
  [0x3b, 0xce, 0xac], [0xd9, 0xf2, 0xb4], [0x7f, 0xdb, 0xff], [0xe8, 0xf8, 0xff],
  [0xc9, 0x8a, 0x5b], [0xff, 0xe8, 0xc2], [0xd0, 0xc8, 0xff], [0xff, 0xff, 0xff],
]);

/**
 * The colours of the states 0 to 15 if only some planes are shown.
 * @param {number[]} colours the colour of each state, as `map` has them
 * @param {number} [shown] the planes that are shown, bit p for plane p; all without it
 * @returns {number[]}
 */
export function coloursShown(colours, shown = 15) {
  return Array.from({ length: 16 }, (_, state) => colours[state & shown]);
}

/**
 * The pixel of each state, as the 32-bit numbers of an ImageData.
 * @param {number[]} colours the colour of each state
 * @param {number} [shown] the planes that are shown, bit p for plane p
 * @returns {Uint32Array} sixteen pixels
 */
export function lights(colours, shown = 15) {
  const bytes = new Uint8Array(64);
  coloursShown(colours, shown).forEach((colour, state) => bytes.set([...PALETTE[colour], 255], 4 * state));
  return new Uint32Array(bytes.buffer);
}

/**
 * Paints each cell as a pixel.
 * @param {Uint8Array} cells states, row by row
 * @param {Uint32Array} table the pixel of each state, of `lights`
 * @param {Uint32Array} pixels as many pixels as cells
 */
export function paint(cells, table, pixels) {
  for (let i = 0; i < cells.length; i++) {
    pixels[i] = table[cells[i]];
  }
}

/**
 * The brightness of a colour, from 0 to 1, as sRGB weighs its lights.
 * @param {number} colour 0 to 15
 * @returns {number}
 */
export function brightness(colour) {
  const [red, green, blue] = PALETTE[colour].map(light => (light / 255) ** 2.2);
  return 0.2126 * red + 0.7152 * green + 0.0722 * blue;
}
