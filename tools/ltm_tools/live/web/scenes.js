// Scenarios side by side: what is kept under a name, each a column beside the base and what is shown now.
import { cellsOf } from "./costs.js";

const LETTERS = ["A", "B", "C", "D", "E"];

export class Scenes {
  // `live` has `state`, `wire`, `results`, `beside` and `change(told)`.
  constructor(box, live) {
    Object.assign(this, { box, live, scenes: [] });
    box.select("#keep").on("click", () => live.wire.send({ keep: this.free() }));
  }

  // The first letter that no scenario has.
  free() {
    return LETTERS.find(letter => !this.scenes.some(({ name }) => name === letter)) || LETTERS[LETTERS.length - 1];
  }

  show(scenes) {
    this.scenes = scenes;
    this.draw();
    this.live.results.setScenes(scenes);
    this.live.beside.offer(scenes);
  }

  draw() {
    const { costs } = this.live.state, free = this.free(), { scenes } = this;
    const isFull = scenes.length >= LETTERS.length;
    this.box.select("#keep").text(`Keep as ${free}`).property("disabled", isFull || costs === null);
    this.box.select("table").attr("hidden", scenes.length ? null : "");
    if (!scenes.length || costs === null) return;
    const columns = scenes.map(one => cellsOf(one.costs).cells), now = cellsOf(costs).cells;
    const head = this.box.select("thead tr").html("");
    for (const text of ["", "base"]) head.append("th").text(text);
    for (const one of scenes) this.heading(head.append("th"), one);
    head.append("th").text("now");
    const rows = now.map((cell, at) => [cell.name, cell.base, ...columns.map(cells => cells[at].now), cell.now]);
    this.box.select("tbody").selectAll("tr").data(rows).join("tr").selectAll("td").data(row => row).join("td")
      .text(text => text);
  }

  heading(head, { name, changes }) {
    const told = changes.join("; ") || "no change";
    head.append("button").attr("type", "button").attr("title", `Show ${name}: ${told}`).text(name)
      .on("click", () => this.live.change({ recall: name }));
    head.append("button").attr("type", "button").attr("class", "back").attr("aria-label", `Remove scenario ${name}`)
      .text("✕").on("click", () => this.live.wire.send({ drop: name }));
  }
}
