// What the map shows as a picture to hand over: title and time, the totals beside the base, the map, its scale and the
// strip of time.
import { cellsOf } from "./costs.js";
import { FREE, GROUND, INK, colourOf } from "./colours.js";
import { FONT } from "./painting.js";
import { save } from "./keep.js";
import { PathText, SvgPen } from "./svgpen.js";

export const ABOVE = 64;  // pixels over the map
const BELOW = 120, MARGIN = 16, SCALE = 220, STRIP = 60, BAR = 6, SIZE = { big: 16, small: 11 };

function write(pen, text, x, y, { size = SIZE.small, bold = false, align = "start" } = {}) {
  pen.font = `${bold ? "bold " : ""}${size}px ${FONT}`;
  pen.textAlign = align;
  pen.fillStyle = INK;
  pen.fillText(text, x, y);
}

function head(pen, live) {
  const { state, net, player } = live, { cells } = cellsOf(state.costs);
  write(pen, `${net.name}, ${net.clock(player.here())}`, MARGIN, 24, { size: SIZE.big, bold: true });
  const told = cells.map(cell => `${cell.name} ${cell.now} (base ${cell.base})`).join("; ");
  write(pen, told, MARGIN, 42);
  write(pen, state.list.filter(({ on }) => on).map(({ text }) => text).join("; "), MARGIN, 57);
}

function scale(pen, live, y) {
  const { both, unit, most } = live.sights.scale(), parts = d3.range(both ? -100 : 0, 101, 2);
  const step = SCALE / parts.length;
  parts.forEach((percent, at) => {
    pen.fillStyle = percent === 0 ? FREE : colourOf(percent / 100);
    pen.fillRect(MARGIN + at * step, y, step + 0.5, 8);
  });
  const [what] = document.getElementById("shown").selectedOptions;
  write(pen, `${what.textContent}, ${both ? `−${most}` : "0"} to ${most} ${unit}`, MARGIN + SCALE + 8, y + 8);
}

function strip(pen, live, y, wide) {
  const { state: { strip: told, list }, net, player } = live, top = Math.max(1000, ...told.now, ...told.base);
  const x = k => MARGIN + k / net.slots * (wide - 2 * MARGIN), at = units => y + STRIP - units / top * (STRIP - 14);
  write(pen, `vehicles in queues and waiting, up to ${Math.round(top / 1000)}; base in grey`, MARGIN, y + 8);
  for (const [values, isBase] of [[told.base, true], [told.now, false]]) {
    pen.beginPath();
    pen.moveTo(x(0), at(0));
    values.forEach((units, place) => pen.lineTo(x(told.at[place]), at(units)));
    pen.lineTo(x(net.slots), at(0));
    pen.fillStyle = pen.strokeStyle = isBase ? FREE : colourOf(0.3);
    pen.lineWidth = 1.6;
    if (isBase) pen.fill();
    else pen.stroke();
  }
  pen.fillStyle = INK;
  for (const { ask: { from, to } } of list.filter(({ on, ask }) => on && ask.from !== undefined)) {
    pen.fillRect(x(from), y + STRIP + 2, Math.max(2, x(to) - x(from)), BAR);
  }
  pen.fillRect(x(player.here()), y + 12, 1, STRIP - 8);
  write(pen, net.clock(0), MARGIN, y + STRIP + 20);
  write(pen, net.clock(net.slots), wide - MARGIN, y + STRIP + 20, { align: "end" });
}

// Paints all of it; `paintMap()` that of the map.
function paint(pen, live, { wide, tall }, paintMap) {
  pen.fillStyle = GROUND;
  pen.fillRect(0, 0, wide, ABOVE + tall + BELOW);
  head(pen, live);
  paintMap();
  scale(pen, live, ABOVE + tall + 8);
  if (live.state.strip) strip(pen, live, ABOVE + tall + 28, wide);
}

const sizeOf = ({ canvas, dense }) => ({ wide: canvas.width / dense, tall: canvas.height / dense });

// The picture as a canvas, as dense as the map on the screen.
export function pictureOf(live) {
  const { canvas, dense } = live.map, size = sizeOf(live.map), picture = document.createElement("canvas");
  const pen = picture.getContext("2d");
  picture.width = canvas.width;
  picture.height = Math.round((ABOVE + size.tall + BELOW) * dense);
  pen.setTransform(dense, 0, 0, dense, 0, 0);
  paint(pen, live, size, () => pen.drawImage(canvas, 0, ABOVE, size.wide, size.tall));
  return picture;
}

// The same as the text of an SVG file.
export function svgOf(live) {
  const size = sizeOf(live.map), pen = new SvgPen(size.wide, ABOVE + size.tall + BELOW);
  paint(pen, live, size, () => {
    pen.open(0, ABOVE, size.wide, size.tall);
    live.map.paintWhole(pen, PathText);
    pen.close();
    pen.textBaseline = "alphabetic";
  });
  return pen.text();
}

export function savePicture(live) {
  const name = `${live.net.name}.png`;
  pictureOf(live).toBlob(blob => { save(blob, name); live.say(`Saved ${name}.`); }, "image/png");
}

export function saveSvg(live) {
  const name = `${live.net.name}.svg`;
  save(new Blob([svgOf(live)], { type: "application/octet-stream" }), name);
  live.say(`Saved ${name}.`);
}
