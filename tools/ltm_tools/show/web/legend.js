// The legend of both maps: what is coloured, the scale, and a line for each sign.
import { gradient } from "./colours.js";
import { ringOf } from "./painting.js";

export const SIGNS = [["line-free", "no queue"], ["✕", "road closed at this time"],
  ["•", "another change at this time"]];
const RINGS = [10, 100, 400];  // vehicles

// The scale below the choice of colours, up to so many `most`; `both` from less than the base to more.
export function drawScale(box, both, unit, most = 100) {
  box.select("i").style("background", gradient(both));
  const texts = [both ? `−${most}` : "0", unit, both ? `+${most}` : String(most)];
  box.selectAll("span").data(texts).text(text => text);
}

// The signs that a map uses, `[sign, meaning]`, and the size of its rings.
export function drawSigns(box, signs) {
  box.html("");
  for (const [sign, meaning] of signs) {
    const line = box.append("li");
    if (sign.startsWith("line-")) line.append("i").attr("class", sign);
    else line.append("b").text(sign);
    line.append("span").text(meaning);
  }
  const line = box.append("li"), svg = line.append("svg").attr("class", "rings").attr("viewBox", "0 0 96 50");
  RINGS.forEach((count, at) => {
    const radius = ringOf(count * 1000), x = [10, 34, 70][at];
    svg.append("circle").attr("cx", x).attr("cy", 44 - radius).attr("r", radius);
    svg.append("text").attr("x", x).attr("y", 49).attr("text-anchor", "middle").text(count);
  });
  line.append("span").text("vehicles waiting to enter at an origin");
}
