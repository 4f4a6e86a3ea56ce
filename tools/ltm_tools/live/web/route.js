// A route that is put together by clicks: its travel time by departure, how full its roads are over time, and where on
// it a queue begins and what blocks it.
import { drawChart, drawKey, drawMoment } from "./chart.js";
import { drawDiagram, sharesOf } from "./diagram.js";
import { queues, ready, vehicles } from "./numbers.js";
import { wayTo } from "./ways.js";

const TALL = 130, MINUTE = 60000, VEHICLE = 1000;
const HINT = "Click the first road of a route and then the last one, or any on the way. The fastest way between two "
  + "roads is filled in. Click a road of the route again to end the route there.";

// The queues of a route at a boundary: `{from, to}`, all with a queue, and each but the first of them full, so that it
// blocks the one before it. `rows` have `queue` and `room` by boundary.
export function stretchesOf(rows, k) {
  const found = [];
  rows.forEach(({ queue }, at) => {
    const last = found[found.length - 1], isBlocked = at > 0 && rows[at].room[k] < VEHICLE;
    if (queue[k] < VEHICLE) return;
    if (last && last.to === at - 1 && isBlocked) last.to = at;
    else found.push({ from: at, to: at });
  });
  return found;
}

export class Route {
  // `live` has `state`, `net`, `wire`, `player`, `draw()` and `say(text, bad)`.
  constructor(box, button, live) {
    Object.assign(this, { box, button, live, on: false, links: [], told: null, rows: [] });
    button.on("click", () => this.turn(!this.on));
  }

  // Begins to add each road that is picked, or ends it.
  turn(on) {
    this.on = on;
    this.button.attr("aria-pressed", String(on)).text(on ? "Done" : "Select a route");
    this.draw();
  }

  // Adds a road with the fastest way to it; of a road of the route, lets it end there.
  add(link) {
    const { links, live } = this, at = links.indexOf(link);
    if (at >= 0) this.put(links.slice(0, at + 1));
    else if (!links.length) this.put([link]);
    else {
      const last = links[links.length - 1], way = wayTo(live.net, last, link);
      if (way === null) live.say(`No way leads from ${this.nameOf(last)} to ${this.nameOf(link)}.`, true);
      else this.put([...links, ...way]);
    }
  }

  put(links) {
    Object.assign(this, { links, told: null, rows: [] });
    this.live.state.route = null;
    this.tell();
    this.draw();
    this.live.draw();
  }

  // Asks for what the route takes, also after the connection was lost.
  tell() {
    const { net, wire } = this.live;
    wire.send({ route: this.links.length ? this.links.map(link => net.links[link].name) : null });
  }

  nameOf(link) {
    const { net } = this.live;
    return net.shown(net.links[link].name, link);
  }

  show(told) {
    const { net } = this.live, names = this.links.map(link => net.links[link].name);
    if (told.route.join("\n") !== names.join("\n")) return;  // of an earlier route
    this.told = told;
    this.rows = told.parts.map(({ now: [up, down], free: [free], wave }, at) => {
      const { storage } = net.links[this.links[at]];
      const room = Array.from(up, (count, k) => ready(of => down[of], k, net.step, wave) + storage - count);
      return { queue: queues(up, down, net.step, free), room };
    });
    this.live.state.route = this.numbers();
    this.draw();
  }

  // What is drawn, as numbers: travel times in ms, how full each link is in parts of what it stores.
  numbers() {
    const { net } = this.live, { parts, times, every, revision } = this.told;
    const shares = of => parts.map((part, at) => sharesOf(part[of], net.links[this.links[at]].storage));
    return { times, every, revision, shares: { now: shares("now"), base: shares("base") } };
  }

  draw() {
    const { box, links, on } = this;
    box.html("");
    if (on && !links.length) box.append("p").attr("class", "hint").text(HINT);
    if (!links.length) return;
    this.drawTitle();
    if (this.told === null) return;
    this.drawTimes();
    this.drawDiagrams();
    box.append("p").attr("class", "blocked");
    this.drawNow();
  }

  drawTitle() {
    const { box, links, live: { net } } = this, title = box.append("p");
    const km = (d3.sum(links, link => net.links[link].length) / 1000).toFixed(1);
    const [first, last] = [links[0], links[links.length - 1]].map(link => this.nameOf(link));
    title.append("bdi").text(links.length > 1 ? `${first} to ${last}` : first);
    title.append("small").text(` ${links.length} link${links.length > 1 ? "s" : ""}, ${km} km `);
    title.append("button").attr("type", "button").text("Clear").on("click", () => this.put([]));
  }

  get span() {
    const { net } = this.live;
    return { first: net.start, last: net.start + net.slots * net.step };
  }

  drawTimes() {
    const { box, live: { net }, told: { times, every } } = this;
    const minutes = values => values.map(ms => ms === null ? null : ms / MINUTE * 1000);
    const line = (of, thin) => ({ values: minutes(times[of]), colour: "var(--entered)", thin, start: net.start,
      step: every * net.step });
    const label = "travel time by departure (minutes)";
    drawChart(box, { lines: [line("now", false), line("base", true)], bound: null, label, tall: TALL, ...this.span });
    drawKey(box, [["now", "var(--entered)"]], "thin: base; no line where trips last beyond the horizon");
  }

  drawDiagrams() {
    const { net, state } = this.live, { shares } = state.route;
    for (const of of state.list.some(({ on }) => on) ? ["now", "base"] : ["now"]) {
      const links = this.links.map((link, at) => ({ name: this.nameOf(link), length: net.links[link].length,
        shares: shares[of][at] }));
      drawDiagram(this.box, { links, title: of, ...this.span });
    }
  }

  // What depends on the time: the upright lines, and the words on where queues begin.
  drawNow() {
    const { net, player } = this.live, k = player.here();
    drawMoment(this.box, net.start + k * net.step);
    this.box.select(".blocked").text(this.words(k));
  }

  words(k) {
    const found = stretchesOf(this.rows, k), { net } = this.live;
    if (!this.rows.length) return "";
    if (!found.length) return `At ${net.clock(k)} no road of the route has a queue.`;
    return found.map(stretch => `At ${net.clock(k)} ${this.queueWords(stretch, k)}`).join(" ");
  }

  queueWords({ from, to }, k) {
    const count = vehicles(d3.sum(this.rows.slice(from, to + 1), ({ queue }) => queue[k]), 1);
    const names = this.links.slice(from, to + 1).map(link => this.nameOf(link)), head = names[names.length - 1];
    const blocked = names.slice(0, -1).map((name, at) => `${name} is blocked by ${names[at + 1]}`);
    return `${count} vehicles queue from the end of ${head}${blocked.length ? `; ${blocked.join(", ")}` : ""}.`;
  }
}
