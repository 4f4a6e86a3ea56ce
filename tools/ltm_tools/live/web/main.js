// Begins the page: the token of the address is kept for this window alone, and taken out of the address.
import { middleOf } from "./geometry.js";
import { Live } from "./live.js";

const token = location.hash.slice(1) || sessionStorage.getItem("token") || "";
sessionStorage.setItem("token", token);
history.replaceState(null, "", location.pathname);

const live = new Live(token), wayOf = name => live.map.wayInWindow(live.net.linkOf.get(name));
// for tests: what is shown, and where it is in the window
window.live = { state: live.state, times: live.times, send: told => live.wire.send(told), app: live,
  middle: name => middleOf(wayOf(name)), nodeAt: name => live.map.nodeInWindow(live.net.nodeOf.get(name)) };
live.wire.connect();
