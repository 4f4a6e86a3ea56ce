"""Clicks that arrive where they are meant to. A browser clicks at a place of its window, and a page that still makes
room for something moves what is there: so a click waits until its element stands still and nothing lies over it, and
one that would hit something else is held back and tried again."""
from __future__ import annotations

from typing import Any

AIM = """\
const args = [...arguments], KINDS = ["pointerdown", "mousedown", "pointerup", "mouseup", "click"], NEAR = 2;
const spotOf = () => { %s };
const twoFrames = () => new Promise(then => requestAnimationFrame(() => requestAnimationFrame(then)));
const named = one => one ? one.outerHTML.slice(0, 120) : "nothing";
const apart = (one, other) => Math.max(...[1, 2].map(at => Math.abs(one[at] - other[at])));
const first = spotOf();
if (!first) return Promise.resolve({ why: "it is not there" });
first[0].scrollIntoView({ block: "nearest" });
const before = spotOf();
return twoFrames().then(() => {
  const spot = spotOf();
  if (!spot || apart(spot, before) > 0.5) return { why: "it moves" };
  const [target, x, y] = spot, top = document.elementFromPoint(x, y);
  if (target.disabled) return { why: `${named(target)} is disabled` };
  if (!top || !target.contains(top)) return { why: `${named(top)} lies over it` };
  const aimed = { hit: false, missed: null };
  const guard = event => {
    const now = spotOf(), isExact = event.type === "pointerdown" || target.tagName === "CANVAS";
    const isThere = now && now[0].contains(event.target) && !(isExact && apart(now, spot) > NEAR);
    if (isThere && aimed.missed === null) {
      aimed.hit = aimed.hit || event.type === "click";
      return;
    }
    aimed.missed = aimed.missed || `it hit ${named(event.target)}`;
    event.preventDefault();
    event.stopImmediatePropagation();
  };
  KINDS.forEach(kind => window.addEventListener(kind, guard, true));
  aimed.end = () => KINDS.forEach(kind => window.removeEventListener(kind, guard, true));
  window.aimed = aimed;
  return { x, y };
});"""
END = """\
const { aimed } = window, frame = () => new Promise(then => requestAnimationFrame(then));
const wait = left => aimed.hit || aimed.missed || left === 0 ? Promise.resolve() : frame().then(() => wait(left - 1));
return wait(120).then(() => {
  aimed.end();
  return aimed.hit && aimed.missed === null ? null : aimed.missed || "no click came";
});"""
ELEMENT = """\
const one = document.querySelectorAll(args[0])[args[1]];
if (!one) return null;
const box = one.getBoundingClientRect();
return [one, box.left + box.width / 2, box.top + box.height / 2];"""
ON_MAP = "return [document.getElementById('network'), ...%s];"
# what a live map knows, for the words of a failure
LIVE = """\
const { live } = window;
if (!live) return null;
const { state, times } = live, of = one => one && one.revision;
const { list, revision, frame, costs, strip } = state;
return { changes: list.length, revision, frame: of(frame), boundary: frame && frame.k, totals: of(costs),
  strip: of(strip), last: times[times.length - 1] || null, notice: document.getElementById("notice").textContent };"""


class Clicks:
    """What a browser that runs scripts and clicks at places can be asked beside."""

    tries = 400  # each of at least two frames of the browser

    def run(self, script: str, *args: object) -> Any:
        raise NotImplementedError

    def click(self, x: float, y: float) -> None:
        raise NotImplementedError

    def click_where(self, spot: str, *args: object) -> None:
        """A click where a script's lines say, which give an element and a point of it in the window, or null."""
        why = ""
        for _ in range(self.tries):
            aimed = self.run(AIM % spot, *args)
            if "why" in aimed:
                why = aimed["why"]
                continue
            self.click(aimed["x"], aimed["y"])
            why = self.run(END)
            if why is None:
                return
        raise AssertionError(f"no click on {args or spot}: {why}; {self.told_state()}")

    def click_on(self, selector: str, number: int = 0) -> None:
        """A click on the middle of an element."""
        self.click_where(ELEMENT, selector, number)

    def click_map(self, point: str, *args: object) -> None:
        """A click at a point of the map that a script tells of `args`, as `live.middle(args[0])`."""
        self.click_where(ON_MAP % point, *args)

    def told_state(self) -> str:
        """What a live map knows at this moment."""
        return f"the map knows {self.run(LIVE)}"
