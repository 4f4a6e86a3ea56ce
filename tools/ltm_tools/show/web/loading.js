// A loading as a page that needs no server has it: from the flows of all slots the counts, and what follows from them.
import { Network } from "./network.js";
import { ready } from "./numbers.js";

// Flows of a slot in text of base 64, two bytes each, the lower first: for each row the counts at all boundaries.
function countsIn(text, rows, slots) {
  const bytes = atob(text), found = new Float64Array(rows * (slots + 1));
  for (let row = 0, place = 0, into = 0; row < rows; row++) {
    let count = 0;
    found[into++] = 0;
    for (let slot = 0; slot < slots; slot++, place += 2) {
      count += bytes.charCodeAt(place) | bytes.charCodeAt(place + 1) << 8;
      found[into++] = count;
    }
  }
  return found;
}

export class Loading extends Network {
  constructor(told) {
    super(told);
    const { slots, links, origins } = told;
    this.wide = slots + 1;
    this.counts = { up: countsIn(told.entered, links.length, slots), down: countsIn(told.left, links.length, slots) };
    this.departed = countsIn(told.departed, origins.length, slots);
    this.originOf = new Map(origins.map((origin, index) => [origin.name, index]));
    this.originAt = new Map(origins.map((origin, index) => [origin.node, index]));
  }

  up(link, k) {
    return this.counts.up[link * this.wide + k];
  }

  down(link, k) {
    return this.counts.down[link * this.wide + k];
  }

  standing(link, k) {
    return this.up(link, k) - this.down(link, k);
  }

  queue(link, k) {
    return ready(at => this.up(link, at), k, this.step, this.links[link].free) - this.down(link, k);
  }

  flow(link, k) {
    return this.down(link, k) - this.down(link, Math.max(0, k - this.lastSlots(k)));
  }

  produced(origin, k) {
    let sum = 0;
    for (const [from, to, units] of this.origins[origin].demand) {
      sum += k <= from ? 0 : k >= to ? units : Math.floor(units * (k - from) / (to - from));
    }
    return sum;
  }

  waiting(origin, k) {
    return this.produced(origin, k) - this.departed[origin * this.wide + k];
  }

  // The curves of a link, with its turns where these are told with it, or of an origin: `[name, colour, values]` above
  // and below, and the storage as a bound; null where there is none of the name.
  curvesOf(name, joined) {
    const links = this.linksOf(name, joined), origin = this.originOf.get(name), ks = d3.range(this.wide);
    if (links.length) {
      const of = link => ({ up: ks.map(k => this.up(link, k)), down: ks.map(k => this.down(link, k)),
        queue: ks.map(k => this.queue(link, k)) });
      const { up, down, standing, queue } = this.summed(links, of);
      return { title: `Link ${name}`, under: this.underOf(links), bound: this.storageOf(links),
        upper: [["entered", "var(--entered)", up], ["left", "var(--left)", down]],
        lower: [["on the link", "var(--standing)", standing], ["queue", "var(--queue)", queue]] };
    }
    if (origin === undefined) return null;
    const produced = ks.map(k => this.produced(origin, k));
    const departed = ks.map(k => this.departed[origin * this.wide + k]);
    return { title: `Origin ${name}`, under: "vehicles that set out, and those that found room on a link", bound: null,
      upper: [["produced", "var(--entered)", produced], ["departed", "var(--left)", departed]],
      lower: [["waiting", "var(--queue)", ks.map(k => produced[k] - departed[k])]] };
  }

  underOf([link, ...turns]) {
    const one = this.links[link], street = this.streetOf(link);
    const [tail, head] = [one.tail, one.head].map(at => this.nodes[at]);
    const names = turns.map(turn => this.links[turn].name).join(", ");
    const where = `from ${tail.name} to ${head.name}, ${one.length} m`;
    return `${street && `${street}, `}${where}${names && `, with ${names}`}`;
  }
}
