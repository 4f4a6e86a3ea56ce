// What the map shows of the frame that is there: amounts by colour, signs on roads that are changed, words beside the
// mouse.
import { SIGNS, drawScale, drawSigns } from "./legend.js";
import { RoadMap } from "./map.js";
import { signed, vehicles } from "./numbers.js";
import { SHOWN, isThere, scaleOf, wordsOf } from "./shown.js";
import { marksOf } from "./story.js";

const NO_LABELS = ["misfit", "worth"], FEW_LINKS = 80, LEAST_LABEL = 500;

export class Sights {
  // `state` has `net`, `frame`, `picked`, `shown` and `list`.
  constructor(state, { canvas, tip, pick, along }) {
    this.state = state;
    this.map = new RoadMap(canvas, tip, {
      get networks() { return [state.net]; },
      network: () => state.net,
      amount: link => state.frame === null ? 0 : this.amount(link),
      most: all => state.frame === null ? 1 : this.most(all),
      waiting: node => state.frame === null ? 0 : state.frame.now.waiting[node],
      chosen: () => state.picked,
      along,
      label: link => this.label(link),
      marks: () => this.marks(),
      nodeFirst: (node, event) => Boolean(event && event.shiftKey),
      tell: what => state.frame === null ? "" : this.tell(what),
      choose: pick,
    });
  }

  amount(link) {
    return SHOWN[this.state.shown].amount(this.state, link);
  }

  most(all) {
    const { most } = SHOWN[this.state.shown];
    return most ? most(this.state, all) : this.state.net.storageOf(all);
  }

  label(link) {
    const { frame, net, shown } = this.state;
    if (frame === null || NO_LABELS.includes(shown) || net.links.length > FEW_LINKS) return "";
    if (Math.abs(this.amount(link)) < LEAST_LABEL) return "";
    const text = vehicles(this.amount(link), 1);
    return shown === "change" ? signed(text, this.amount(link)) : text;
  }

  marks() {
    const { frame, list, net } = this.state;
    return marksOf(net, list, frame === null ? 0 : frame.k);
  }

  tell({ link, node }) {
    const { frame: { now, base }, net, shown } = this.state;
    if (link !== undefined) {
      const { name, storage } = net.links[link];
      return `${net.shown(name)}: ${vehicles(now.queue[link])} in the queue, base ${vehicles(base.queue[link])}; `
        + `${vehicles(now.standing[link])} on it of ${vehicles(storage)}${wordsOf(shown, this.state, link)}`;
    }
    if (node === undefined) return "";
    const waits = `${vehicles(now.waiting[node])} waiting, base ${vehicles(base.waiting[node])}`;
    return `node ${net.nodes[node].name}${net.isOrigin.has(node) ? `: ${waits}` : ""}`;
  }

  scale() {
    return scaleOf(this.state.shown, this.state.net);
  }

  // Offers the colours that this case has numbers for.
  offer() {
    for (const one of document.getElementById("shown").options) one.hidden = !isThere(one.value, this.state.net);
  }

  legend() {
    const { both, unit, most } = this.scale();
    drawScale(d3.select("#scale"), both, unit, most);
    drawSigns(d3.select("#signs"), SIGNS);
  }
}
