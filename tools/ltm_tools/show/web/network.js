// A network as both maps know it: links and nodes by name, the names of streets and of the source, and the roads that
// were cut before a crossing, each with its turns.

import { clockOf, momentOf } from "./numbers.js";

const QUARTER = 15 * 60 * 1000;  // ms
const sum = (values, of) => values.reduce((total, value) => total + of(value), 0);

// What was told of a network, with what is looked up in it.
export class Network {
  constructor(told) {
    Object.assign(this, told);
    this.linkOf = new Map(this.links.map((link, at) => [link.name, at]));
    this.nodeOf = new Map(this.nodes.map((node, at) => [node.name, at]));
    this.partOf = new Map(this.links.flatMap((link, at) => (link.source || []).map(name => [name, at])));
    this.roads = new Map(Object.entries(told.approaches || {}));
    this.roadFrom = new Map([...this.roads].map(([name, [link]]) => [link, name]));
    this.roadWith = new Map([...this.roads.values()].flatMap(all => all.map(link => [link, all])));
    const names = link => [link.name, ...(link.source || []), link.street || ""];
    this.called = this.links.map(link => names(link).join(" ").toLowerCase());
  }

  // The link by its name, or by that of a link of the source which is part of it.
  linkNamed(name) {
    return this.linkOf.has(name) ? this.linkOf.get(name) : this.partOf.get(name);
  }

  // The clock time of a boundary, and the boundary of a clock time; null where it is not within the horizon.
  clock(k) {
    return clockOf(this.start + k * this.step);
  }

  boundaryOf(text) {
    const moment = momentOf(text), k = moment === null ? -1 : Math.round((moment - this.start) / this.step);
    return k >= 0 && k <= this.slots ? k : null;
  }

  isCalled(link, words) {
    return this.called[link].includes(words);
  }

  // The street of a link, or an empty text.
  streetOf(link) {
    return this.links[link].street || "";
  }

  // A road as people know it: its street with the name behind it, or the name alone.
  shown(name, link = this.linkOf.get(name)) {
    return link !== undefined && this.streetOf(link) ? `${this.streetOf(link)} (${name})` : name;
  }

  // The links that a road is, by its name: with its turns where these are told with it.
  linksOf(name, joined) {
    return joined && this.roads.get(name) || (this.linkOf.has(name) ? [this.linkOf.get(name)] : []);
  }

  // All roads, each `{name, all}` with the links that it is.
  allRoads(joined) {
    const roads = joined ? [...this.roads].map(([name, all]) => ({ name, all })) : [];
    const grouped = new Set(roads.flatMap(({ all }) => all));
    const single = this.links.map(({ name }, at) => ({ name, all: [at] })).filter(({ all }) => !grouped.has(all[0]));
    return [...roads, ...single];
  }

  // Whether one of these links, or the road by its name, is called by these words in small letters.
  isRoadCalled({ name, all }, words) {
    return name.toLowerCase().includes(words) || all.some(link => this.isCalled(link, words));
  }

  // Of the links of a road those to which no other of them leads, and those that lead to no other.
  endsOf(all) {
    const heads = new Set(all.map(at => this.links[at].head)), tails = new Set(all.map(at => this.links[at].tail));
    const first = all.filter(at => !heads.has(this.links[at].tail));
    return { first, last: all.filter(at => !tails.has(this.links[at].head)) };
  }

  // How many of the last slots an amount of flow is of, and the most that leaves links in them.
  lastSlots(k) {
    return Math.max(1, Math.min(k, Math.round(QUARTER / this.step)));
  }

  mostFlow(all, k) {
    return sum(all, link => this.capacities[link]) * this.lastSlots(k);
  }

  storageOf(all) {
    return sum(all, link => this.links[link].storage);
  }

  // The curves of a road of several links: `of(link)` has arrays `up`, `down` and `queue`, in which k runs over all
  // boundaries.
  summed(all, of) {
    const curves = new Map(all.map(link => [link, of(link)])), { first, last } = this.endsOf(all);
    const added = (links, member) => curves.get(all[0]).up.map((_, k) => sum(links, at => curves.get(at)[member][k]));
    const standing = curves.get(all[0]).up.map((_, k) => sum(all, at => curves.get(at).up[k] - curves.get(at).down[k]));
    return { up: added(first, "up"), down: added(last, "down"), standing, queue: added(all, "queue") };
  }
}
