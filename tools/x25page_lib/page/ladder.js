// The ladder that is shown: which rows it has, how it is paged and folded, and how keys go from packet to packet.

const EDGE = 4;
const LONG_RUN = 16;
const ITEMS_AT_ONCE = 250;
const FLOWING = new Set(["data", "rr", "rnr", "interrupt", "interrupt_confirmation"]);
const shown = { key: null, items: [], from: 0, packet: null, at: null };

function isPlain(row) {
  return FLOWING.has(row.type) && !row.fault && row.before === row.after && !row.more.message && !row.more.settings &&
    !row.more.not_counted;
}

function callOfKey(key) {
  return key.startsWith("call-") ? callsByNumber.get(Number(key.slice(5))) : null;
}

// The rows of a ladder with the restart that ended its call, which is in the ladder of the interface.
function entries(key) {
  const found = (facts.ladders[key] || []).map((it) => (Array.isArray(it) ? { row: rowOf(it) }
    : it.missing ? { missing: it } : { run: it }));
  const call = callOfKey(key);
  if (call && call.how === "restart") {
    const ending = (facts.ladders.interface || []).find((it) => Array.isArray(it) && it[0] === call.ended);
    if (ending) found.push({ row: rowOf(ending) });
  }
  return found;
}

// Folds the middle of long runs of rows that show nothing special.
function folded(found) {
  const items = [];
  let run = [];
  const close = () => {
    if (run.length > LONG_RUN) items.push(...run.slice(0, EDGE), { fold: run.slice(EDGE, -EDGE) }, ...run.slice(-EDGE));
    else items.push(...run);
    run = [];
  };
  for (const item of found) {
    if (item.row && isPlain(item.row)) run.push(item);
    else {
      close();
      items.push(item);
    }
  }
  close();
  return items;
}

function unfold(item) {
  const at = shown.items.indexOf(item);
  const [part, rest] = [item.fold.slice(0, ITEMS_AT_ONCE), item.fold.slice(ITEMS_AT_ONCE)];
  shown.items.splice(at, 1, ...part, ...(rest.length ? [{ fold: rest }] : []));
  drawLadder();
  focusRow(place(`row-${part[0].row.packet}`));
}

function firstState(items) {
  const first = items.find((item) => item.row || item.fold);
  return first ? (first.row || first.fold[0].row).before : "p1";
}

function drawLadder() {
  const room = place("ladder-room");
  if (!room) return;
  const at = shown.at = layout(printing.width || room.clientWidth || 1100);
  const items = shown.items.slice(shown.from, shown.from + ITEMS_AT_ONCE);
  const begun = shown.items.find((item) => item.row && item.row.time !== null)?.row.time ?? 0;
  let state = firstState(items);
  // The chips come after the lifelines, which they cover in a narrow ladder.
  const parts = [[[...lifelines(at, 0, 30, state), stateChip(state, at.left, 14), stateChip(state, at.right, 14)], 30]];
  let y = 30;
  for (const item of items) {
    const [part, height] = item.row ? drawRow(item.row, at, y, begun)
      : item.missing ? drawMissing(item.missing, at, y) : drawGap(item, at, y, state);
    state = item.row ? item.row.after : state;
    parts.push([part, height]);
    y += height;
  }
  parts.push([lifelines(at, y, 16, state), 16]);
  place("ladder-head").replaceChildren(ladderHead(at));
  room.setAttribute("aria-label",
    `Ladder: ${keyName(shown.key)}. Arrow keys go from packet to packet, Enter shows one.`);
  room.replaceChildren(...drawings(parts, at));
  place("ladder-pages").replaceChildren(...pageButtons());
  mark(false);
}

// The parts of a ladder as one drawing; on paper each is a drawing of its own, so that no page ends within a row.
function drawings(parts, at) {
  const drawing = (children, y, height) => draw("svg", { class: "ladder", viewBox: `0 ${y} ${at.width} ${height}` },
    children);
  if (!printing.width) return [drawing(parts.map(([part]) => part), 0, parts.reduce((sum, it) => sum + it[1], 0))];
  let y = 0;
  return parts.map(([part, height]) => {
    y += height;
    return drawing(part, y - height, height);
  });
}

function phases() {
  const names = { "set-up": "set-up", transfer: "data transfer", reset: "reset", clear: "clearing", restart: "restart",
    ready: "ready", unknown: "state not known, as after a gap" };
  const there = new Set(shown.items.flatMap((item) => (item.row ? [phase(item.row.before), phase(item.row.after)]
    : [])));
  return make("p", { class: "legend" },
    Object.entries(names).filter(([it]) => there.has(it)).map(([it, name]) => make("span", { class: `key life-${it}` },
    name)));
}

function showFrom(from) {
  shown.from = from;
  drawLadder();
}

function pageButtons() {
  const total = shown.items.length;
  if (total <= ITEMS_AT_ONCE) return [];
  const button = (name, from) => make("button",
    { type: "button", disabled: from < 0 || from >= total, click: () => showFrom(from) }, name);
  return [button("earlier", shown.from - ITEMS_AT_ONCE), button("later", shown.from + ITEMS_AT_ONCE),
    make("span", { class: "muted" },
      `lines ${count(shown.from + 1)} to ${count(Math.min(total, shown.from + ITEMS_AT_ONCE))} of ${count(total)}`)];
}

// What a call is, in a line of parts.
function callFacts(call) {
  const circuit = circuitOf(call.channel, call.opened);
  const hosts = SIDES.map((_, side) => hostOf(side, call.channel, call.opened));
  const settings = facts.settings.filter((it) => it[0] === call.call);
  const fact = (name, ...value) => make("div", {}, make("dt", {}, name), make("dd", {}, ...value));
  return make("dl", { class: "call-facts" },
    fact("from", call.calling ?? "-"), fact("to", call.called ?? "-"),
    fact("direction", word("direction", call.direction, call.direction === "out" ? "outgoing" : "incoming")),
    fact("channel", count(call.channel)),
    hosts.map((host, side) => host !== null && fact(`host of the ${SIDES[side]}`, host)),
    fact("packets", spanName(call.opened, call.ended)),
    call.start !== null && fact("start", clock(call.start)),
    call.seconds !== null && fact("length", length(call.seconds)),
    fact("data of the DTE", `${count(call.dataT)} (${plural(call.octetsT, "octet")})`),
    fact("data of the DCE", `${count(call.dataN)} (${plural(call.octetsN, "octet")})`),
    fact("segments", count(call.segments)), call.gaps > 0 && fact("gaps", count(call.gaps)), fact("pays", call.payer ?? "-", ` (the ${call.pays} side)`),
    fact("end", ...howEnded(call)),
    settings.length > 0 && fact("PAD settings", settings.map(([, side, parameter, how, value]) => [
      make("div", {}, `${SIDES[LETTERS.indexOf(side)]}: parameter `, word("parameter", String(parameter)),
        ` ${how} ${value}`)])),
    circuit && fact("circuit", circuit[2]),
    facts.use.closed.filter((it) => it[0] === `call-${call.call}`).map(([key, , side, seconds, first]) =>
      fact(`window of the ${SIDES[side]} closed`, `${length(seconds)} at most, from `, packetLink(key, first))));
}

function neighbours(key) {
  const keys = calls.map((call) => `call-${call.call}`);
  const at = keys.indexOf(key);
  const link = (name, to) => (to ? make("a", { class: "button", href: `#${to}` }, name) : null);
  return make("div", { class: "tools" },
    at >= 0 && [link("\u2190 call before", keys[at - 1]), link("call after \u2192", keys[at + 1])]);
}

// The command that prints what the page leaves out.
function command(options) {
  const read = typeof facts.again === "string" ? `x25scan < ${facts.again}` : `x25trace ${facts.again.all} | x25scan`;
  return `${read} ${options}`;
}

function missingRows(key) {
  const option = key.startsWith("call-") ? `--call ${key.slice(5)}` : `--channel ${key.slice(8)}`;
  return make("div", {}, make("p", {},
    "The packets of this ladder are left out to keep the page small. This command shows them:"),
    make("pre", {}, command(`--annotate ${option}`)));
}

function openLadder(key, packet) {
  shown.key = key;
  shown.packet = packet;
  shown.items = folded(entries(key));
  shown.from = pageOf(packet);
  const call = callOfKey(key);
  place("ladder").replaceChildren(
    make("div", { class: "section-head" }, make("h2", {}, keyName(key)), neighbours(key)),
    make("div", { class: "card ladder-card" }, call && callFacts(call), phases(),
      shown.items.length ? make("div", { class: "rungs" }, make("div", { id: "ladder-head", class: "ladder-head" }),
        make("div", { id: "ladder-room", role: "group", keydown: ladderKey })) : missingRows(key),
      make("div", { id: "ladder-pages", class: "tools" }), make("p", { id: "ladder-note", class: "left-out" })),
    make("div", { id: "detail", class: "card", role: "region", "aria-label": "The packet", "aria-live": "polite",
      hidden: true }));
  if (shown.items.length) drawLadder();
}

// Which page of the ladder a packet is on; a fold with it is opened.
function pageOf(packet) {
  const holds = (item) => (item.row ? item.row.packet === packet : item.fold?.some((it) => it.row.packet === packet));
  let at = shown.items.findIndex(holds);
  if (at >= 0 && shown.items[at].fold) {
    shown.items.splice(at, 1, ...shown.items[at].fold);
    at = shown.items.findIndex(holds);
  }
  return Math.max(0, Math.floor(at / ITEMS_AT_ONCE) * ITEMS_AT_ONCE);
}

// Marks the row that was chosen, and says what is known of it. The tab key comes to it, else to the first row.
function mark(withDetail = true) {
  for (const element of document.querySelectorAll(".row.chosen")) element.classList.remove("chosen");
  const item = shown.items.find((it) => it.row && it.row.packet === shown.packet);
  const isMissing = shown.packet !== null && !item && shown.items.length;
  place("ladder-note").textContent = isMissing
    ? `${upper(packetName(shown.packet))} is left out to keep the page small.` : "";
  const element = item && place(`row-${shown.packet}`);
  element?.classList.add("chosen");
  makeReachable(element || rows()[0]);
  if (item && withDetail) showDetail(item.row);
}

// The rows and folds of the ladder, of which one can be reached by the tab key and the others by arrow keys.
const rows = () => [...document.querySelectorAll("#ladder-room .row, #ladder-room .fold")];

function makeReachable(element) {
  for (const row of rows()) row.setAttribute("tabindex", row === element ? 0 : -1);
}

function focusRow(element) {
  if (!element) return;
  makeReachable(element);
  element.focus({ preventScroll: true });
  inView(element);
}

// Scrolls an element to where neither the top of the page nor the detail hides it.
function inView(element) {
  const box = element.getBoundingClientRect();
  const detail = place("detail");
  const top = document.querySelector(".top").offsetHeight + 60;
  const bottom = detail && !detail.hidden ? detail.getBoundingClientRect().top : window.innerHeight;
  if (box.top < top) window.scrollBy({ top: box.top - top });
  else if (box.bottom > bottom - 8) window.scrollBy({ top: box.bottom - bottom + 8 });
}

// Goes to the packet before or after the one that has the focus, also on the page of the ladder before or after.
function step(by) {
  const all = rows();
  const at = all.indexOf(document.activeElement.closest(".row, .fold"));
  if (at + by < 0 && shown.from > 0) {
    showFrom(shown.from - ITEMS_AT_ONCE);
    return rows().at(-1);
  }
  if (at + by >= all.length && shown.from + ITEMS_AT_ONCE < shown.items.length) {
    showFrom(shown.from + ITEMS_AT_ONCE);
    return rows()[0];
  }
  return all[Math.min(all.length - 1, Math.max(0, at + by))];
}

const STEPS = { ArrowDown: () => step(1), ArrowRight: () => step(1), ArrowUp: () => step(-1),
  ArrowLeft: () => step(-1), Home: () => rows()[0], End: () => rows().at(-1) };

// Arrows go from packet to packet; where one is shown in full, the next one is.
function ladderKey(event) {
  if (event.target.closest("[data-word]") && event.key === "Enter") return;
  if (event.key === "Enter" || event.key === " ") {
    event.preventDefault();
    event.target.closest(".row, .fold")?.dispatchEvent(new MouseEvent("click", { bubbles: true }));
  } else if (Object.hasOwn(STEPS, event.key) && !event.altKey && !event.ctrlKey && !event.metaKey) {
    event.preventDefault();
    const next = STEPS[event.key]();
    if (!place("detail").hidden && next.id) goTo(`${shown.key}/${next.id.slice(4)}`, true);
    focusRow(next);
  }
}
