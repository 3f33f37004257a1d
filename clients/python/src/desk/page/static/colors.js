// Colors of states, for style sheets and for canvases.

export const cssColor = (it) => it ? `rgb(${it.join(" ")})` : "#fff";

// A color as the canvas has it.
export const inkOf = ([red, green, blue]) => (255 << 24 | blue << 16 | green << 8 | red) >>> 0;
