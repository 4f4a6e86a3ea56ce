// What a map paints beside its roads, with the pen of a canvas or one that writes a file: nodes, names, signs.
import { GROUND, HALO, INK, WAITING, WAITING_CHOSEN } from "./colours.js";
import { beside, lengthOf, middleOf } from "./geometry.js";

export const FONT = "system-ui, \"DejaVu Sans\", sans-serif";
const FEW_NODES = 60, LABEL_ROOM = 55, LABEL_OFF = 20, MOST_RING = 26, LEAST_RING = 3, DISC = 8;

export const ringOf = units => Math.min(MOST_RING, LEAST_RING + Math.sqrt(units / 1000));

export function stroke(pen, way, width, paint) {
  pen.lineWidth = width;
  pen.strokeStyle = paint;
  pen.beginPath();
  way.forEach((place, index) => index ? pen.lineTo(place[0], place[1]) : pen.moveTo(place[0], place[1]));
  pen.stroke();
}

export function disc(pen, x, y, size, paint) {
  pen.beginPath();
  pen.arc(x, y, size, 0, 2 * Math.PI);
  pen.fillStyle = paint;
  pen.fill();
}

// A text with a pale edge, so that it can be read on any ground.
export function write(pen, text, x, y, { size = 11, bold = false, align = "center", angle = 0 } = {}) {
  pen.save();
  pen.translate(x, y);
  pen.rotate(angle);
  pen.font = `${bold ? "bold " : ""}${size}px ${FONT}`;
  pen.textAlign = align;
  pen.textBaseline = align === "center" ? "middle" : "alphabetic";
  pen.lineWidth = 3;
  pen.strokeStyle = HALO;
  pen.strokeText(text, 0, 0);
  pen.fillStyle = INK;
  pen.fillText(text, 0, 0);
  pen.restore();
}

// Nodes where they are few, with names; rings that grow with the vehicles that wait.
export function paintNodes(pen, network, at, shows) {
  const { node: chosen } = shows.chosen();
  network.nodes.forEach((node, number) => {
    const [x, y] = at(node.x, node.y), waits = shows.waiting(number);
    if (waits > 0) disc(pen, x, y, ringOf(waits), chosen === number ? WAITING_CHOSEN : WAITING);
    if (chosen === number) {
      pen.lineWidth = 2;
      pen.strokeStyle = INK;
      pen.beginPath();
      pen.arc(x, y, DISC, 0, 2 * Math.PI);
      pen.stroke();
    }
    if (network.nodes.length <= FEW_NODES) {
      disc(pen, x, y, 3, INK);
      write(pen, node.name, x + 6, y - 7, { size: 12, align: "start" });
    }
  });
}

// A short text beside the middle of each link that is long enough for it.
export function paintLabels(pen, ways, label) {
  ways.forEach((way, link) => {
    const text = label(link), ends = [way[0], way[way.length - 1]];
    if (text && lengthOf(ends) >= LABEL_ROOM) write(pen, text, ...middleOf(beside(way, LABEL_OFF)));
  });
}

// Signs in discs on the middles of links.
export function paintMarks(pen, ways, marks) {
  for (const [link, sign] of marks) {
    const [x, y] = middleOf(ways[link]);
    disc(pen, x, y, DISC, INK);
    pen.font = `bold 11px ${FONT}`;
    pen.textAlign = "center";
    pen.textBaseline = "middle";
    pen.fillStyle = GROUND;
    pen.fillText(sign, x, y + 0.5);
  }
}
