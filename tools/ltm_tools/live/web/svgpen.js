// A pen like that of a canvas that writes SVG: as much of it as maps and pictures use.

const ANCHORS = { start: "start", center: "middle", end: "end" }, IDENTITY = [1, 0, 0, 1, 0, 0], DIGITS = 100;
const SIGNS = { "&": "&amp;", "<": "&lt;", ">": "&gt;", "\"": "&quot;" };
const FONT = /^(bold )?([0-9.]+)px (.*)$/;
const escaped = text => String(text).replace(/[&<>"]/g, sign => SIGNS[sign]);
const round = number => Math.round(number * DIGITS) / DIGITS;

// A line or an area as the text of a path.
export class PathText {
  constructor() {
    this.words = [];
  }

  moveTo(x, y) {
    this.words.push(`M${x},${y}`);
  }

  lineTo(x, y) {
    this.words.push(`L${x},${y}`);
  }
}

export class SvgPen {
  constructor(wide, tall) {
    const size = `width="${wide}" height="${tall}" viewBox="0 0 ${wide} ${tall}"`;
    this.parts = [`<svg xmlns="http://www.w3.org/2000/svg" ${size} stroke-linecap="round" stroke-linejoin="round">`];
    this.measure = document.createElement("canvas").getContext("2d");
    Object.assign(this, { matrix: IDENTITY, kept: [], path: [], fillStyle: "#000", strokeStyle: "#000", lineWidth: 1,
      font: "", textAlign: "start", textBaseline: "alphabetic" });
  }

  // All that is drawn until `close` lies in a box, and is cut off at its edges.
  open(x, y, wide, tall) {
    this.parts.push(`<svg x="${x}" y="${y}" width="${wide}" height="${tall}" overflow="hidden">`);
  }

  close() {
    this.parts.push("</svg>");
  }

  text() {
    return [...this.parts, "</svg>", ""].join("\n");
  }

  // ---- places

  setTransform(...matrix) {
    this.matrix = matrix;
  }

  translate(x, y) {
    const [a, b, c, d, e, f] = this.matrix;
    this.matrix = [a, b, c, d, a * x + c * y + e, b * x + d * y + f];
  }

  rotate(angle) {
    const [a, b, c, d, e, f] = this.matrix, [cos, sin] = [Math.cos(angle), Math.sin(angle)];
    this.matrix = [a * cos + c * sin, b * cos + d * sin, c * cos - a * sin, d * cos - b * sin, e, f];
  }

  save() {
    this.kept.push(this.matrix);
  }

  restore() {
    this.matrix = this.kept.pop();
  }

  get moved() {
    return this.matrix.every((one, at) => one === IDENTITY[at]) ? "" : ` transform="matrix(${this.matrix.join(" ")})"`;
  }

  // ---- lines and areas

  beginPath() {
    this.path = [];
  }

  moveTo(x, y) {
    this.path.push(`M${round(x)},${round(y)}`);
  }

  lineTo(x, y) {
    this.path.push(`L${round(x)},${round(y)}`);
  }

  // A whole circle, as nothing else is drawn here.
  arc(x, y, size) {
    const [left, right, r] = [x - size, x + size, size].map(round), down = round(y);
    this.path.push(`M${right},${down}A${r},${r} 0 1 0 ${left},${down}A${r},${r} 0 1 0 ${right},${down}Z`);
  }

  stroke({ words } = { words: this.path }) {
    const look = `fill="none" stroke="${escaped(this.strokeStyle)}" stroke-width="${this.lineWidth}"`;
    if (words.length) this.parts.push(`<path d="${words.join("")}" ${look}${this.moved}/>`);
  }

  fill({ words } = { words: this.path }, rule = "nonzero") {
    const look = `fill="${escaped(this.fillStyle)}" fill-rule="${rule}"`;
    if (words.length) this.parts.push(`<path d="${words.join("")}" ${look}${this.moved}/>`);
  }

  fillRect(x, y, wide, tall) {
    const box = `x="${round(x)}" y="${round(y)}" width="${round(wide)}" height="${round(tall)}"`;
    this.parts.push(`<rect ${box} fill="${escaped(this.fillStyle)}"${this.moved}/>`);
  }

  // ---- texts

  measureText(text) {
    this.measure.font = this.font;
    return this.measure.measureText(text);
  }

  write(text, x, y, look) {
    const base = this.textBaseline === "middle" ? " dominant-baseline=\"central\"" : "";
    const [, bold, size, family] = FONT.exec(this.font), weight = bold ? " font-weight=\"bold\"" : "";
    const font = `font-family="${escaped(family)}" font-size="${size}"${weight}`;
    const kind = `${font} text-anchor="${ANCHORS[this.textAlign]}"${base}`;
    this.parts.push(`<text x="${round(x)}" y="${round(y)}" ${kind} ${look}${this.moved}>${escaped(text)}</text>`);
  }

  fillText(text, x, y) {
    this.write(text, x, y, `fill="${escaped(this.fillStyle)}"`);
  }

  strokeText(text, x, y) {
    this.write(text, x, y, `fill="none" stroke="${escaped(this.strokeStyle)}" stroke-width="${this.lineWidth}"`);
  }
}
