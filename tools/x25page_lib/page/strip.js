// The strip: a lane for each channel over the whole trace, calls as bars, findings as marks, restarts as lines, gaps as
// breaks in the lanes.

const AXIS = 34;
const NEAR = 7;
const RIGHT = 12;
const LANES_ON_PAPER = 800;
const HELP = "A click opens a ladder; a drag makes that part larger. Arrow keys go from bar to bar, Enter opens one.";
const strip = { byTime: false, from: 0, to: 0, width: 0, labels: 0, lanes: new Map(), height: 0, lane: 0, drag: null };

function lastPacket(call) {
  return call.ended ?? facts.rows[1];
}

// The time of a packet, between those of the packets that the page has times of.
function timeAt(packet) {
  const all = facts.times;
  let low = 0;
  let high = all.length - 1;
  while (high - low > 1) {
    const middle = (low + high) >> 1;
    if (all[middle][0] <= packet) low = middle;
    else high = middle;
  }
  const [first, begin] = all[low];
  const [second, end] = all[high];
  if (second === first) return begin;
  return begin + (end - begin) * Math.min(1, Math.max(0, (packet - first) / (second - first)));
}

const value = (packet) => (strip.byTime ? timeAt(packet) : packet);
const across = (packet) => strip.labels + (value(packet) - strip.from) / (strip.to - strip.from ||
  1) * (strip.width - strip.labels - RIGHT);
const back = (x) => strip.from + (x - strip.labels) / (strip.width - strip.labels - RIGHT) * (strip.to - strip.from);

function wholeView() {
  const [first, last] = facts.rows;
  strip.from = value(first ?? 0);
  strip.to = value(last ?? 1);
  if (!strip.byTime) strip.to += 1;
}

function laneHeight(many) {
  return many <= 16 ? 26 : many <= 40 ? 18 : many <= 120 ? 10 : 5;
}

function layOut() {
  const names = facts.channels.map(String);
  if (facts.restarts.length || facts.marks.some((mark) => mark[2] === null)) names.unshift("interface");
  strip.lane = laneHeight(names.length);
  // On paper all lanes are on one page.
  if (printing.width) strip.lane = Math.min(strip.lane, LANES_ON_PAPER / names.length);
  strip.labels = 24 + 6.4 * Math.max(...names.map((name) => laneName(name).length), strip.width < NARROW ? 4 : 9);
  strip.lanes = new Map(names.map((name, at) => [name, at]));
  strip.height = Math.max(1, names.length) * strip.lane;
}

const laneOf = (channel) => strip.lanes.get(channel === null ? "interface" : String(channel));

// The bars of calls as one line of a path: those that lie on each other become one.
function barsPath(chosen) {
  const ends = new Map();
  let path = "";
  for (const call of chosen) {
    const x = across(call.opened);
    const right = Math.max(x + 1.5, across(lastPacket(call)));
    if (right < strip.labels || x > strip.width || right < (ends.get(call.channel) ?? -1) + 0.5) continue;
    ends.set(call.channel, right);
    const left = Math.max(strip.labels, x);
    const inner = Math.max(2, strip.lane - 6);
    const y = laneOf(call.channel) * strip.lane + (strip.lane - inner) / 2;
    const long = Math.min(right, strip.width - 4) - left;
    path += `M${left.toFixed(1)} ${y}h${long.toFixed(1)}v${inner}H${left.toFixed(1)}z`;
  }
  return path;
}

function marksPath() {
  const seen = new Set();
  const size = Math.min(6, strip.lane / 2);
  let path = "";
  for (const [packet, , channel] of facts.marks) {
    const x = Math.round(across(packet) * 2) / 2;
    const lane = laneOf(channel);
    if (x < strip.labels || x > strip.width || seen.has(`${x} ${lane}`)) continue;
    seen.add(`${x} ${lane}`);
    path += `M${x - size} ${lane * strip.lane + strip.lane / 2}l${size} ${-size}l${size} ${size}l${-size} ${size}z`;
  }
  return path;
}

function lanesPath() {
  let path = "";
  for (const at of strip.lanes.values()) {
    path += `M${strip.labels} ${at * strip.lane + strip.lane / 2}H${strip.width - 4}`;
  }
  return path;
}

function restartsPath() {
  let path = "";
  for (const [packet] of facts.restarts) {
    const x = across(packet);
    if (x >= strip.labels && x <= strip.width) path += `M${x.toFixed(1)} 0V${strip.height}`;
  }
  return path;
}

// A break in the lane of a gap, or in all lanes.
function gapsPath() {
  let path = "";
  for (const [packet, channel] of facts.gaps) {
    const x = across(packet);
    const lane = channel === null ? 0 : laneOf(channel);
    if (x < strip.labels || x > strip.width || lane === undefined) continue;
    const [from, high] = channel === null ? [0, strip.height] : [lane * strip.lane, strip.lane];
    path += `M${(x - 1.5).toFixed(1)} ${from}h3v${high}h-3z`;
  }
  return path;
}

function laneName(name) {
  if (name === "interface") return strip.width < NARROW ? "line" : name;
  return strip.width < NARROW ? `ch. ${name}` : `channel ${name}`;
}

function laneNames() {
  if (strip.lane < 10) return [];
  return [...strip.lanes].map(([name, at]) => draw("text",
    { class: "lane-name", x: strip.labels - 8, y: at * strip.lane + strip.lane / 2 + 4, "text-anchor": "end" },
    laneName(name)));
}

function barNames() {
  if (calls.length > 400 || strip.lane < 14) return [];
  return calls.map((call) => {
    const [x, right] = [Math.max(strip.labels, across(call.opened)), Math.min(strip.width, across(lastPacket(call)))];
    if (right - x < 12 + 7 * String(call.call).length) return null;
    return draw("text", { class: "bar-name", x: x + 6, y: laneOf(call.channel) * strip.lane + strip.lane / 2 + 4 },
      String(call.call));
  });
}

function niceStep(range, many) {
  const rough = range / many;
  const power = 10 ** Math.floor(Math.log10(rough || 1));
  return [1, 2, 5, 10].map((it) => it * power).find((it) => it >= rough);
}

function axis() {
  const step = Math.max(strip.byTime ? 1e-6 : 1, niceStep(strip.to - strip.from, strip.width / 130));
  const ticks = [];
  for (let at = Math.ceil(strip.from / step) * step; at < strip.to; at += step) {
    const x = strip.labels + (at - strip.from) / (strip.to - strip.from) * (strip.width - strip.labels - RIGHT);
    if (x > strip.width - 30) break;
    const under = !strip.byTime && facts.times.length ? shortClock(timeAt(at)) : "";
    ticks.push(draw("path", { class: "tick", d: `M${x} 26v8` }),
      draw("text", { class: "tick-name", x, y: 12, "text-anchor": "middle" },
        strip.byTime ? shortClock(at) : count(Math.round(at))),
      draw("text", { class: "tick-time", x, y: 24, "text-anchor": "middle" }, under));
  }
  const size = { width: strip.width, height: AXIS, viewBox: `0 0 ${strip.width} ${AXIS}` };
  return draw("svg", { class: "axis", ...size, "aria-hidden": "true" }, ticks,
    draw("text", { class: "tick-name", x: 0, y: 12 }, strip.byTime ? "time" : "packet"));
}

function lanes() {
  const found = calls.filter((call) => call.findings);
  const good = calls.filter((call) => !call.findings);
  const size = { width: strip.width, height: strip.height, viewBox: `0 0 ${strip.width} ${strip.height}` };
  return draw("svg", { class: "lanes", ...size, role: "img", "aria-label": "Calls, findings and restarts by channel" },
    draw("path", { class: "lane-line", d: lanesPath() }),
    draw("path", { class: "bar-good", d: barsPath(good) }),
    draw("path", { class: "bar-found", d: barsPath(found) }),
    draw("path", { class: "gap-break", d: gapsPath() }),
    draw("path", { class: "restart-line", d: restartsPath() }),
    draw("path", { class: "mark-found", d: marksPath() }),
    laneNames(), barNames(), draw("rect", { class: "chosen-range", height: strip.height, y: 0, width: 0 }),
    draw("rect", { class: "reached", rx: 4, width: 0 }));
}

// What lies under a point: a finding, else a call.
function under(event) {
  const box = place("lanes").firstElementChild.getBoundingClientRect();
  const [x, lane] = [event.clientX - box.left, Math.floor((event.clientY - box.top) / strip.lane)];
  let [best, far] = [null, NEAR];
  for (const mark of facts.marks) {
    const distance = Math.abs(across(mark[0]) - x);
    if (laneOf(mark[2]) === lane && distance < far) [best, far] = [{ mark }, distance];
  }
  if (best) return { ...best, x };
  for (const gap of facts.gaps) {
    const distance = Math.abs(across(gap[0]) - x);
    if ((gap[1] === null || laneOf(gap[1]) === lane) && distance < Math.min(far, NEAR / 2)) [best, far] = [gap, distance];
  }
  const missing = best ? { gap: best } : {};
  [best, far] = [null, NEAR];
  for (const call of calls) {
    if (laneOf(call.channel) !== lane) continue;
    const distance = Math.max(across(call.opened) - x, x - across(lastPacket(call)), 0);
    if (distance < far) [best, far] = [{ call }, distance];
  }
  const channel = [...strip.lanes.keys()][lane];
  return { ...(best || {}), ...missing, channel, x };
}

function underText({ mark, call, restart, packet, gap }) {
  if (restart !== undefined) return `${upper(packetName(packet))} of the ${SIDES[restart]}: a restart`;
  if (mark) return `${upper(packetName(mark[0]))} of the ${[SIDES[mark[1]], hostOf(mark[1], mark[2], mark[0])].filter(Boolean).join(" ")}: code ${mark[3]}. ${mark[5]}`;
  if (gap) return gapName(...gap);
  if (!call) return "";
  const found = call.findings ? `; ${plural(call.findings, "finding")}` : "";
  const ends = `${call.calling ?? "-"} to ${call.called ?? "-"}`;
  return `Call ${call.call}: ${ends}, ${spanName(call.opened, call.ended)}, ${plural(call.segments, "segment")}${found}`;
}

function go({ mark, call, channel }) {
  if (mark) goTo(`${mark[4]}/${mark[0]}`);
  else if (call) goTo(`call-${call.call}`);
  else if (channel && facts.ladders[channel === "interface" ? channel : `channel-${channel}`]) {
    goTo(channel === "interface" ? channel : `channel-${channel}`);
  }
}

function zoomTo(from, to) {
  if (to - from < (strip.byTime ? 1e-6 : 2)) return;
  [strip.from, strip.to] = [from, to];
  drawStrip();
}

function zoomBy(factor) {
  const [middle, half] = [(strip.from + strip.to) / 2, (strip.to - strip.from) / 2 * factor];
  const now = [strip.from, strip.to];
  wholeView();
  zoomTo(Math.max(strip.from, middle - half), Math.min(strip.to, middle + half));
  if (strip.to - strip.from < 2 && !strip.byTime) zoomTo(...now);
}

function press(event) {
  strip.drag = under(event).x;
}

function move(event) {
  const at = under(event);
  place("under").textContent = underText(at) || HELP;
  const chosen = place("lanes").querySelector(".chosen-range");
  if (strip.drag !== null && Math.abs(at.x - strip.drag) > NEAR) {
    chosen.setAttribute("x", Math.min(at.x, strip.drag));
    chosen.setAttribute("width", Math.abs(at.x - strip.drag));
  }
}

function release(event) {
  const [begin, at] = [strip.drag, under(event)];
  strip.drag = null;
  if (begin === null) return;
  if (Math.abs(at.x - begin) <= NEAR) go(at);
  else zoomTo(back(Math.max(strip.labels, Math.min(at.x, begin))), back(Math.max(at.x, begin)));
}

function drawStrip() {
  strip.width = printing.width || Math.max(300, place("strip-room").clientWidth);
  layOut();
  place("axis").replaceChildren(axis());
  place("lanes").replaceChildren(lanes());
}

function stripTools() {
  const button = (name, act) => make("button", { type: "button", click: act }, name);
  const whole = () => { wholeView(); drawStrip(); };
  const axes = facts.times.length > 1 ? [
    button("by packets", () => { strip.byTime = false; whole(); }),
    button("by time", () => { strip.byTime = true; whole(); })] : [];
  return make("div", { class: "tools" }, axes, button("closer", () => zoomBy(0.5)), button("farther", () => zoomBy(2)),
    button("whole", whole));
}

function showStrip() {
  if (!facts.channels.length && !facts.restarts.length && !facts.marks.length) return;
  const legend = make("p", { class: "legend" },
    make("span", { class: "key good" }, "call"), make("span", { class: "key found" }, "call with findings"),
    make("span", { class: "key mark" }, "finding"), make("span", { class: "key restart" }, "restart"),
    facts.gaps.length > 0 && make("span", { class: "key missing" }, "gap: packets may be missing"));
  const lanesRoom = make("div", { id: "lanes", tabindex: 0, role: "application", "aria-describedby": "under",
    "aria-label": "Channels over the trace", pointerdown: press, pointermove: move, pointerup: release,
    keydown: stripKey, focus: reachFirst, blur: leaveBars });
  const room = make("div", { id: "strip-room" }, make("div", { id: "axis" }), lanesRoom);
  place("strip").append(make("div", { class: "section-head" }, make("h2", {}, "Channels over the trace"),
    stripTools()), legend, make("div", { class: "card flush" }, room),
  make("p", { id: "under", class: "muted", role: "status" }, HELP),
  leftOut(facts.left_out.calls, "call", "The lanes do not have them.") ?? "");
  wholeView();
  drawStrip();
}
