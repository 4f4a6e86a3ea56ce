// The list of changes: each with a box that switches it on and off, its words, and a button that removes it.
import { signed, unitOf } from "./numbers.js";

const EFFECT = "When these routes were found: total travel time with them while the road is open, against before; and "
  + "then with the road closed, against that.";

// What a closure with informed drivers changes: their routes alone, and the closure with them.
function effectOf(effect) {
  if (!effect) return "";
  const [before, alone, closed] = effect, unit = unitOf(...effect);
  const by = change => signed(unit.show(change), change);
  return `rerouting alone ${by(alone - before)}, closure ${by(closed - alone)} ${unit.name}`;
}

export class List {
  // `live` has `remove(id)`, `switch(id, on)` and `picking`. Where none is left the search gets the focus.
  constructor(box, live) {
    Object.assign(this, { box, live });
  }

  added(enter) {
    const { live } = this, of = one => d3.select(one.parentNode).datum(), item = enter.append("li");
    item.append("input").attr("type", "checkbox").attr("aria-label", "on")
      .on("change", function () { live.switch(of(this).id, this.checked); });
    item.append("button").attr("type", "button").attr("class", "link")
      .on("click", function () { live.picking.named(of(this).ask); });
    item.append("small").attr("class", "by");
    item.append("small").attr("class", "effect");
    item.append("button").attr("type", "button").attr("class", "back").attr("title", "Remove this change").text("✕")
      .on("click", function () { live.remove(of(this).id); });
    return item;
  }

  draw(entries, mine) {
    const list = this.box.node(), all = list.children;
    const held = [...all].findIndex(item => item.contains(document.activeElement)), { length } = all;
    const items = this.box.selectAll("li").data(entries, one => one.id).join(enter => this.added(enter));
    items.order().classed("off", one => !one.on).classed("covered", one => one.covered);
    items.each(function (one) {
      const item = d3.select(this), by = one.by === mine ? "" : one.by;
      item.select("input").property("checked", one.on);
      item.select(".link").text(one.text).attr("title", one.text + (one.covered ? ": a later change covers it" : ""));
      item.select(".by").text(one.covered ? "covered" : by);
      item.select(".effect").text(effectOf(one.effect)).attr("title", EFFECT);
      item.select(".back").attr("aria-label", `Remove: ${one.text}`);
    });
    if (entries.length > length) list.scrollTop = list.scrollHeight;
    if (held < 0 || list.contains(document.activeElement)) return;
    if (all.length) all[Math.min(held, all.length - 1)].querySelector(".back").focus();
    else document.getElementById("search").focus();
  }
}
