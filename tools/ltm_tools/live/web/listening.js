// What a user does with the buttons, boxes and keys of the page.
import { keepAs } from "./keep.js";
import { savePicture, saveSvg } from "./picture.js";

const $ = id => document.getElementById(id), ZOOM = 1.5;
const FILES = ["script", "case"], ZOOMS = [["in", ZOOM], ["out", 1 / ZOOM], ["fit"]];

// Ctrl-Z undoes, Ctrl-Y and Ctrl-Shift-Z redo, but where one writes.
function key(event, live) {
  const writes = event.target.matches("input:not([type=range]):not([type=checkbox])"), name = event.key.toLowerCase();
  if (!(event.ctrlKey || event.metaKey) || writes || name !== "z" && name !== "y") return;
  event.preventDefault();
  live.undo(name === "y" || event.shiftKey);
}

function search(live) {
  const { state, results, picking } = live;
  $("search").addEventListener("input", () => { state.found = $("search").value.trim(); results.draw(); });
  $("search").addEventListener("keydown", event => {
    if (event.key !== "Enter" || !state.found) return;
    const isThere = picking.typed(state.found);
    live.say(isThere ? "" : `No road or node is called ${state.found}.`, !isThere);
  });
}

// A page is saved with what is to stand on it.
function about(live) {
  const form = $("about");
  $("page").addEventListener("click", () => { form.hidden = !form.hidden; });
  form.addEventListener("submit", event => {
    event.preventDefault();
    keepAs($("save"), live, Object.fromEntries(new FormData(form)));
  });
}

// The address of the map that only shows it, to the clipboard where there is one.
async function link(live) {
  const address = `${location.origin}/#${live.state.shows}`;
  try {
    await navigator.clipboard.writeText(address);
    live.say("The read-only address is in the clipboard.");
  } catch (fault) {
    live.say(`The read-only address: ${address}`);
  }
}

export function listen(live) {
  $("picture").addEventListener("click", () => savePicture(live));
  $("svg").addEventListener("click", () => saveSvg(live));
  $("link").addEventListener("click", () => link(live));
  for (const id of FILES) $(id).addEventListener("click", event => keepAs(event.target, live));
  for (const [id, factor] of ZOOMS) $(id).addEventListener("click", () => live.map.zoomBy(factor));
  $("undo").addEventListener("click", () => live.undo());
  $("redo").addEventListener("click", () => live.undo(true));
  $("stop").addEventListener("click", () => live.wire.send({ stop: live.progress.at }));
  $("shown").addEventListener("change", event => live.colourBy(event.target.value));
  document.addEventListener("keydown", event => key(event, live));
  document.querySelector("#joined input").addEventListener("change", event => {
    live.state.joined = event.target.checked;
    live.results.draw();
    live.picking.tell();
  });
  search(live);
  about(live);
}
