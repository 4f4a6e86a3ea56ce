// Where things of a network lie on a canvas: all of it at first, then as one has zoomed and moved.
import { beside, lengthOf, middleAndWay, pointsOf } from "./geometry.js";

const ROOM = 60, LEAST_PIXELS = 1.5, MOST_SCALE = 1e8, TURN_PIXELS = 70, MANY = 600;
const isScale = scale => Number.isFinite(scale) && scale > 0 && scale < MOST_SCALE;

export class View {
  constructor() {
    this.zoom = d3.zoomIdentity;
    this.fit = null;
    this.network = null;
  }

  // Makes room for all that these networks have, in a box of the window.
  measure(box, networks) {
    const places = networks.flatMap(one => [
      ...one.nodes.map(node => [node.x, node.y]),
      ...one.links.flatMap(link => link.shape || []),
    ]);
    const [left, right] = d3.extent(places, place => place[0]), [low, high] = d3.extent(places, place => place[1]);
    const room = Math.min(ROOM, box.width / 8, box.height / 8);
    const wide = (box.width - 2 * room) / (right - left || 1e-9), tall = (box.height - 2 * room) / (high - low || 1e-9);
    const scale = Math.min(wide, tall);
    const middle = [(left + right) / 2, (low + high) / 2];
    this.fit = { box, scale: isScale(scale) ? scale : 1, east: middle[0], north: middle[1] };
    this.ways = null;
  }

  // The pixels that a unit of the network's places takes.
  get scale() {
    return this.fit.scale * this.zoom.k;
  }

  at(x, y) {
    const { box, scale, east, north } = this.fit;
    return this.zoom.apply([box.width / 2 + (x - east) * scale, box.height / 2 - (y - north) * scale]);
  }

  moveTo(zoom) {
    this.zoom = zoom;
    this.ways = null;
  }

  thickness(network) {
    const times = network.links.length > MANY ? 1.3 : 3;
    return Math.max(1.2, Math.min(5, 1.1 * Math.sqrt(this.zoom.k) * times));
  }

  // Takes the lines of a network, and how long its turns are.
  take(network) {
    this.network = network;
    this.lines = network.links.map(link => pointsOf(network.nodes, link));
    this.ways = null;
    const turns = [...network.roads.values()].flatMap(([, ...rest]) => rest);
    this.turnLength = d3.median(turns, link => lengthOf(this.lines[link])) || 0;
    this.through = new Map([...network.roads.values()].map(all => [this.straightest(all), all]));
  }

  // The turn that goes on as its road does, which stands for all where turns are too short to be told apart.
  straightest([road, ...turns]) {
    const along = middleAndWay(this.lines[road]).way;
    const bent = turn => {
      const line = this.lines[turn], [a, b] = [line[0], line[line.length - 1]], way = [b[0] - a[0], b[1] - a[1]];
      const length = (Math.hypot(...way) * Math.hypot(...along)) || 1e-9;
      return (along[0] * way[0] + along[1] * way[1]) / length;
    };
    return turns[d3.maxIndex ? d3.maxIndex(turns, bent) : turns.map(bent).indexOf(d3.max(turns, bent))];
  }

  // Whether each turn is drawn by itself.
  showsTurns() {
    return this.turnLength === 0 || this.turnLength * this.scale >= TURN_PIXELS;
  }

  // Where each link is drawn: to the right of where it runs. Points that fall on the one before are passed over.
  placed(network) {
    if (this.network !== network) this.take(network);
    if (this.ways !== null) return this.ways;
    const off = 1 + this.thickness(network) / 2;
    this.ways = this.lines.map(all => {
      const places = [];
      all.forEach(([x, y], index) => {
        const [east, south] = this.at(x, y), last = places[places.length - 1];
        const isNear = last && Math.hypot(east - last[0], south - last[1]) < LEAST_PIXELS;
        if (!isNear || index === all.length - 1) places.push([east, south]);
      });
      return beside(places, off);
    });
    return this.ways;
  }

  // The links that are drawn: without the turns where these are too short to be told apart, but for those that go on.
  drawn(network) {
    const ways = this.placed(network), all = ways.map((_, link) => link);
    if (this.showsTurns()) return all;
    const { roadWith } = network, isRoad = link => !roadWith.has(link) || roadWith.get(link)[0] === link;
    return all.filter(link => isRoad(link) || this.through.has(link));
  }

  // The links whose amounts are shown together on a link.
  togetherWith(link) {
    return !this.showsTurns() && this.network.roadWith.get(link) || [link];
  }
}
