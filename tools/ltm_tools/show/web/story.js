// A scenario beside its base on a page that needs no server: who made it, what was changed, and the effect in the words
// and numbers of the live map.
import { drawTotals } from "./costs.js";

const NOT_COMPARABLE = "Do not compare these hours: the vehicles not arrived by the end differ by over 0.1 % of all.";

// The signs of changes at a boundary, by link: `state` of all of them is in `changes`.
export function marksOf(net, changes, k) {
  const isNow = ({ from, to }) => from === undefined || from <= k && k < to;
  const asks = changes.filter(({ on, ask }) => on && ask.link !== undefined && ask.node === undefined && isNow(ask))
    .map(({ ask }) => ask);
  const closed = asks.filter(({ kind }) => kind === "close");
  const signs = [...asks.map(ask => [ask, "•"]), ...closed.map(ask => [ask, "✕"])];
  const linkOf = ({ road, link }) => net.roads.has(road) ? net.roads.get(road)[0] : net.linkOf.get(link);
  return new Map(signs.map(([ask, sign]) => [linkOf(ask), sign]).filter(([link]) => link !== undefined));
}

function drawChanges(box, { author, date, note, changes, costs }) {
  box.attr("hidden", null).html("");
  box.append("p").attr("class", "hint").text([author, date].filter(text => text).join(", "));
  if (note) box.append("p").attr("class", "note").text(note);
  if (!costs.comparable) box.append("p").attr("class", "worse").text(NOT_COMPARABLE);
  box.append("h2").text("Changes");
  const items = box.append("ol").selectAll("li").data(changes).join("li").classed("off", one => !one.on);
  items.append("bdi").text(one => one.text);
  items.append("small").text(one => !one.on ? " (switched off)" : one.covered ? " (covered by a later change)" : "");
}

// Draws the story, and gives the unit of its times.
export function drawStory(story, { box, totals }) {
  drawChanges(box, story);
  return drawTotals(totals, story.costs);
}
