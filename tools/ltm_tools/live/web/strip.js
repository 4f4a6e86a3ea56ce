// The strip of time below the map: all queues now and in the base, and a bar for each change, whose ends are dragged.
import { ticksOf } from "./chart.js";
import { clockOf, vehicles } from "./numbers.js";

const TALL = 74, LEFT = 44, RIGHT = 12, TOP = 12, BASE = 40, BAR = 6, MOST_BARS = 4, EDGE = 12;
const LEAST_PART = 0.02;

// From when to when queues differ from the base, and when most; null where they do not. What is less than a fiftieth
// of the most is left out.
function differsOf({ at, differs }) {
  const most = Math.max(...differs), seen = at.filter((_, place) => differs[place] > most * LEAST_PART);
  return most === 0 ? null : { from: seen[0], to: seen[seen.length - 1], most: at[differs.indexOf(most)] };
}

export class Strip {
  // `live` has `state`, `net`, `player`, `jumps` and `change(told)`.
  constructor(box, words, live) {
    Object.assign(this, { box, words, live, held: null });
    this.svg = box.append("svg");
    for (const name of ["axis", "base", "line", "bars"]) this.svg.append("g").attr("class", name);
    this.svg.append("path").attr("class", "here");
    this.svg.append("text").attr("x", LEFT + 6).attr("y", TOP).text("vehicles in queues and waiting");
    window.addEventListener("resize", () => live.state.strip && this.show(live.state.strip));
    this.svg.node().addEventListener("pointerdown", event => this.begin(event));
    this.svg.node().addEventListener("pointermove", event => this.held && this.drag(event));
    this.svg.node().addEventListener("pointerup", () => this.end());
  }

  // The pixels that the horizon takes.
  get wide() {
    return Math.max(1, this.box.node().clientWidth - LEFT - RIGHT);
  }

  x(k) {
    return LEFT + k / this.live.net.slots * this.wide;
  }

  // The boundary at a place of the window.
  kAt(event) {
    const box = this.svg.node().getBoundingClientRect(), x = event.clientX - box.left;
    const part = (x - LEFT) / this.wide;
    return Math.round(Math.max(0, Math.min(1, part)) * this.live.net.slots);
  }

  // Shows what is told, and after a change of one's own goes to where queues differ most.
  take({ strip, of }) {
    const { live } = this, found = differsOf(strip);
    live.state.strip = { ...strip, revision: of };
    this.show(strip);
    if (of !== live.state.revision) return;  // of an earlier list
    if (live.jumps && found !== null) live.player.show(found.most);
    live.jumps = false;
  }

  show(strip) {
    const { net } = this.live, top = Math.max(1000, ...strip.now, ...strip.base);
    const y = d3.scaleLinear([0, top], [BASE, TOP]);
    this.svg.attr("viewBox", `0 0 ${this.wide + LEFT + RIGHT} ${TALL}`);
    const area = d3.area().x((_, at) => this.x(strip.at[at])).y0(BASE).y1(units => y(units));
    const path = (group, values, shape) => this.svg.select(`.${group}`).selectAll("path").data([values]).join("path")
      .attr("d", shape);
    path("base", strip.base, area);
    path("line", strip.now, area.lineY1());
    const last = net.start + net.slots * net.step;
    const place = at => this.x((at - net.start) / net.step);
    const ticks = ticksOf(net.start, last).map(at => [place(at), TALL - 2, clockOf(at), "middle"]);
    ticks.push([LEFT - 4, TOP + 4, vehicles(top, 0), "end"], [LEFT - 4, BASE, "0", "end"]);
    this.svg.select(".axis").selectAll("text").data(ticks).join("text").attr("x", ([x]) => x).attr("y", one => one[1])
      .attr("text-anchor", one => one[3]).text(one => one[2]);
    const found = differsOf(strip), clock = k => net.clock(k);
    this.words.text(found === null ? "" : `Queues differ from ${clock(found.from)} to ${clock(found.to)}, most at `
      + `${clock(found.most)}.`);
    this.drawBars();
  }

  spans() {
    return this.live.state.list.filter(({ on, ask }) => on && ask.from !== undefined).slice(-MOST_BARS);
  }

  drawBars() {
    const spans = this.spans(), held = this.held;
    const of = one => held && held.id === one.id ? held : one.ask;
    const bars = this.svg.select(".bars").selectAll("rect").data(spans, one => one.id).join("rect");
    const wide = ({ from, to }) => Math.max(2, this.x(to) - this.x(from));
    bars.attr("x", one => this.x(of(one).from)).attr("width", one => wide(of(one)))
      .attr("y", (_, row) => BASE + 3 + row * BAR).attr("height", BAR - 1);
    bars.each(function (one) {
      const title = d3.select(this).selectAll("title").data([one.text]).join("title");
      title.text(text => text);
    });
    this.svg.select(".here").attr("d", `M${this.x(this.live.player.here())},${TOP - 8}V${BASE + 3 + MOST_BARS * BAR}`);
  }

  // A bar is held by its middle or an end; anywhere else the slider goes where the mouse is.
  begin(event) {
    const bar = event.target.closest(".bars rect"), k = this.kAt(event);
    this.svg.node().setPointerCapture(event.pointerId);
    if (!bar) {
      this.held = { slider: true };
      this.live.player.show(k, true);
      return;
    }
    const one = d3.select(bar).datum(), { from, to } = one.ask, near = EDGE / this.wide * this.live.net.slots;
    const end = Math.abs(k - to) <= near ? "to" : Math.abs(k - from) <= near ? "from" : null;
    this.held = { id: one.id, ask: one.ask, from, to, was: { from, to }, at: k, end };
  }

  drag(event) {
    const { held } = this, k = this.kAt(event), { slots } = this.live.net;
    if (held.slider) {
      this.live.player.show(k, true);
      return;
    }
    const by = Math.max(-held.was.from, Math.min(slots - held.was.to, k - held.at));
    if (held.end === "to") held.to = Math.max(held.from + 1, Math.min(slots, held.was.to + k - held.at));
    else if (held.end === "from") held.from = Math.min(held.to - 1, Math.max(0, held.was.from + k - held.at));
    else [held.from, held.to] = [held.was.from + by, held.was.to + by];
    this.drawBars();
  }

  end() {
    const { held } = this;
    this.held = null;
    if (!held || held.slider || held.from === held.was.from && held.to === held.was.to) return;
    this.live.change({ amend: held.id, edit: { ...held.ask, from: held.from, to: held.to } });
  }
}
