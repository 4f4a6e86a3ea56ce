// The map of both pages: links in colours along their shapes, both directions side by side, and rings at nodes where
// vehicles wait.
import { paintBackground, paintPlace, paintStreets, pathsOf } from "./backdrop.js";
import { CHOSEN, FREE, colourOf } from "./colours.js";
import { middleOf } from "./geometry.js";
import { moveByKey } from "./keys.js";
import { paintLabels, paintMarks, paintNodes, stroke } from "./painting.js";
import { pointOf, showTip, under } from "./pointing.js";
import { View } from "./view.js";

const MANY = 1500, PAUSE = 90, MOST_ZOOM = 60;
const within = part => Math.max(-1, Math.min(1, part));

// A map on a canvas. `shows` tells what it shows: `network()` with nodes and links, `networks` that all have room on
// it, `amount(link)` in thousandths of a vehicle, `waiting(node)`, `chosen()` and `nodeFirst(node, event)`; it has
// `tell(what)` for the text beside the mouse, `choose(what, event)`, and may have `most(links)` of amounts, else what
// they store, `label(link)`, and `marks()` by link.
export class RoadMap {
  constructor(canvas, tip, shows) {
    Object.assign(this, { canvas, tip, shows, view: new View(), pen: canvas.getContext("2d") });
    this.steady = { canvas: document.createElement("canvas"), of: null };
    this.moved = { canvas: document.createElement("canvas"), zoom: null, timer: null };
    this.zoom = d3.zoom().scaleExtent([0.5, MOST_ZOOM]).on("zoom", () => this.move(d3.zoomTransform(canvas)));
    d3.select(canvas).call(this.zoom);
    canvas.addEventListener("click", event => shows.choose(under(this, pointOf(canvas, event), event), event));
    canvas.addEventListener("mousemove", event => showTip(this, event));
    canvas.addEventListener("mouseleave", () => { tip.hidden = true; });
    canvas.addEventListener("keydown", event => moveByKey(this, event));
    new ResizeObserver(() => this.resized()).observe(canvas.parentElement);
  }

  resized() {
    if (!this.shows.network()) return;
    this.measure();
    this.draw();
  }

  measure() {
    const box = this.canvas.getBoundingClientRect();
    this.view.fit = null;
    if (!box.width || !box.height) return;  // it is not shown
    this.dense = window.devicePixelRatio || 1;
    for (const one of [this.canvas, this.steady.canvas, this.moved.canvas]) {
      one.width = Math.round(box.width * this.dense);
      one.height = Math.round(box.height * this.dense);
    }
    this.view.measure(box, this.shows.networks);
    this.steady.of = this.paths = null;
  }

  // What part of the most the amount of a link is, or of all links that are drawn as it.
  partOf(link) {
    const { shows } = this, all = this.view.togetherWith(link);
    return within(d3.sum(all, shows.amount) / (shows.most ? shows.most(all) : shows.network().storageOf(all)));
  }

  clear(pen) {
    pen.setTransform(this.dense, 0, 0, this.dense, 0, 0);
    pen.clearRect(0, 0, this.view.fit.box.width, this.view.fit.box.height);
    pen.lineCap = pen.lineJoin = "round";
  }

  // Roads without colours, which stay as they are while time goes on.
  steadyPicture(network, drawn) {
    const { steady, view } = this, of = view.placed(network);
    if (steady.of !== of) {
      steady.of = of;
      const pen = steady.canvas.getContext("2d");
      this.clear(pen);
      this.paintSteady(pen, network, drawn);
    }
    return steady.canvas;
  }

  paintSteady(pen, network, drawn) {
    if (this.paths === null || this.pathsOf !== network) {
      this.pathsOf = network;
      this.paths = pathsOf(network.background, this.view.fit);
    }
    this.paintRoads(pen, network, drawn, { paths: this.paths, dense: this.dense });
  }

  paintRoads(pen, network, drawn, { paths, dense }) {
    const { view } = this, ways = view.placed(network), thick = view.thickness(network);
    paintBackground(pen, paths, view, dense);
    for (const link of drawn) stroke(pen, ways[link], thick, FREE);
  }

  // All of the map by a pen that writes a file; `Shape` is what it takes for lines and areas.
  paintWhole(pen, Shape) {
    const { view } = this, network = this.shows.network(), drawn = (view.placed(network), view.drawn(network));
    this.paintRoads(pen, network, drawn, { paths: pathsOf(network.background, view.fit, Shape), dense: 1 });
    this.paint(pen, network, drawn);
  }

  draw() {
    if (!this.view.fit) return;
    const { pen, view } = this, network = this.shows.network(), drawn = (view.placed(network), view.drawn(network));
    this.moved.zoom = null;
    this.clear(pen);
    const { width, height } = view.fit.box;
    pen.drawImage(this.steadyPicture(network, drawn), 0, 0, width, height);
    this.paint(pen, network, drawn);
  }

  // All that changes with time.
  paint(pen, network, drawn) {
    const { shows, view } = this, ways = view.placed(network), thick = view.thickness(network);
    const { link } = shows.chosen();
    if (shows.along) for (const one of shows.along()) stroke(pen, ways[one], thick * 2.6 + 2, CHOSEN);
    const parts = drawn.map(one => [one, this.partOf(one)]).filter(([, part]) => part !== 0);
    parts.sort((a, b) => Math.abs(a[1]) - Math.abs(b[1]));
    for (const [one, part] of parts) stroke(pen, ways[one], thick * (1 + 1.2 * Math.abs(part)), colourOf(part));
    if (link !== undefined) {
      stroke(pen, ways[link], thick * 2.6 + 2, CHOSEN);
      stroke(pen, ways[link], thick * 1.6, colourOf(this.partOf(link)));
    }
    if (shows.label) paintLabels(pen, ways, shows.label);
    if (shows.marks) paintMarks(pen, ways, shows.marks());
    paintNodes(pen, network, (x, y) => view.at(x, y), shows);
    paintStreets(pen, network, ways, view.fit.box);
    paintPlace(pen, network, view);
  }

  // Shows another part. With thousands of links the picture that is there is moved, and painted anew after a pause.
  move(zoom) {
    this.tip.hidden = true;
    if (!this.view.fit) return;
    if (this.shows.network().links.length < MANY) {
      this.view.moveTo(zoom);
      this.draw();
      return;
    }
    const { moved, pen } = this, { width, height } = this.view.fit.box;
    if (moved.zoom === null) {
      moved.zoom = this.view.zoom;
      const kept = moved.canvas.getContext("2d");
      kept.clearRect(0, 0, moved.canvas.width, moved.canvas.height);
      kept.drawImage(this.canvas, 0, 0);
    }
    this.view.moveTo(zoom);
    const k = zoom.k / moved.zoom.k, [x, y] = [zoom.x - moved.zoom.x * k, zoom.y - moved.zoom.y * k];
    this.clear(pen);
    pen.drawImage(moved.canvas, x, y, width * k, height * k);
    clearTimeout(moved.timer);
    moved.timer = setTimeout(() => this.draw(), PAUSE);
  }

  // The points of a link as it is drawn, in the window.
  wayInWindow(link) {
    const box = this.canvas.getBoundingClientRect();
    return this.view.placed(this.shows.network())[link].map(([x, y]) => [x + box.left, y + box.top]);
  }

  nodeInWindow(number) {
    const box = this.canvas.getBoundingClientRect(), { x, y } = this.shows.network().nodes[number];
    const [east, south] = this.view.at(x, y);
    return [east + box.left, south + box.top];
  }

  // Has another map show the same part as this one, whichever of both is moved.
  linkTo(other) {
    for (const [one, two] of [[this, other], [other, this]]) {
      one.zoom.on("zoom.linked", () => two.follow(d3.zoomTransform(one.canvas)));
    }
  }

  follow(zoom) {
    const { k, x, y } = this.view.zoom;
    if (k !== zoom.k || x !== zoom.x || y !== zoom.y) d3.select(this.canvas).call(this.zoom.transform, zoom);
  }

  // Zooms by a factor about the middle, or with none shows all again.
  zoomBy(factor) {
    const canvas = d3.select(this.canvas);
    if (factor === undefined) canvas.call(this.zoom.transform, d3.zoomIdentity);
    else canvas.call(this.zoom.scaleBy, factor);
  }

  moveBy(east, south) {
    d3.select(this.canvas).call(this.zoom.translateBy, east / this.view.zoom.k, south / this.view.zoom.k);
  }

  // Brings a link or node into sight where it is out of it.
  bring(what) {
    const network = this.shows.network(), { box } = this.view.fit, { x, y } = network.nodes[what.node] || {};
    const place = what.link === undefined ? this.view.at(x, y) : middleOf(this.view.placed(network)[what.link]);
    if (place[0] >= 0 && place[1] >= 0 && place[0] <= box.width && place[1] <= box.height) return;
    this.moveBy(box.width / 2 - place[0], box.height / 2 - place[1]);
  }
}
