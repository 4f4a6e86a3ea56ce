// A second map beside the first, of the base or of a scenario that is kept, at the same time and of the same part.
import { Sights } from "./sights.js";
import { frameOf } from "./wire.js";

const BASE = "base";

export class Beside {
  // `live` has `state`, `net`, `map`, `wire`, `picking` and `route`.
  constructor(live, { sheets, choice, canvas, tip, caption }) {
    Object.assign(this, { live, sheets, choice, canvas, caption, of: "", frame: null });
    const self = this, { state } = live;
    this.sights = new Sights({
      get net() { return state.net; },
      get frame() { return self.shown(); },
      get picked() { return state.picked; },
      get shown() { return state.shown; },
      list: [],
    }, { canvas, tip, pick: what => live.picking.pick(what), along: () => live.route.links });
    live.map.linkTo(this.sights.map);
    choice.addEventListener("change", () => this.turnTo(choice.value));
  }

  // What the second map is drawn of; null where there is nothing yet.
  shown() {
    const { frame } = this.live.state;
    if (this.of === BASE) return frame && { ...frame, now: frame.base };
    return this.frame;
  }

  turnTo(of) {
    const { live, sights: { map } } = this;
    Object.assign(this, { of, frame: null });
    this.sheets.classList.toggle("two", of !== "");
    this.tell();
    if (of === "") return;
    map.measure();
    map.follow(live.map.view.zoom);
    this.draw();
  }

  // Tells which scenario is to be shown, also after the connection was lost.
  tell() {
    this.live.wire.send({ beside: this.of === BASE || this.of === "" ? null : this.of });
  }

  // A frame of the scenario, at the last of its moments up to that of the slider.
  show(words) {
    const { links, nodes } = this.live.net;
    this.frame = frameOf(words, links.length, nodes.length);
    this.draw();
  }

  // Offers the base and the scenarios that are kept.
  offer(scenes) {
    const { choice } = this, names = ["", BASE, ...scenes.map(({ name }) => name)];
    d3.select(choice).selectAll("option").data(names).join("option").attr("value", name => name)
      .text(name => name || "nothing");
    if (!names.includes(this.of)) this.turnTo("");
    choice.value = this.of;
  }

  draw() {
    if (this.of === "") return;
    const frame = this.shown(), { net, state } = this.live, name = this.of === BASE ? BASE : `scenario ${this.of}`;
    const lacks = state.shown === "flow" && this.of !== BASE ? "; flows of it are not kept" : "";
    this.caption.textContent = `${name}${frame ? ` at ${net.clock(frame.k)}` : ""}${lacks}`;
    this.sights.map.draw();
  }
}
