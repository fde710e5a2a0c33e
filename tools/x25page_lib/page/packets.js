// All packets in their order, over all ladders, some lines at a time; and where a packet is found by its number.

const LINES_AT_ONCE = 100;
const list = { all: null, lines: [], from: 0, filter: null, chosen: null };

// The packets of the page and the sums of those that are left out, in their order, each with the key of its ladder.
function everyPacket() {
  if (list.all) return list.all;
  list.all = [];
  for (const [key, items] of Object.entries(facts.ladders)) {
    for (const item of items.filter((it) => !it.missing)) {
      list.all.push({ number: Array.isArray(item) ? item[0] : item.first, key, item });
    }
  }
  list.all.sort((a, b) => a.number - b.number);
  return list.all;
}

const isRow = (it) => Array.isArray(it.item);

// The place of the first packet in the list that has this number or a greater one.
function placeOf(number, lines) {
  let [low, high] = [0, lines.length];
  while (low < high) {
    const middle = (low + high) >> 1;
    if (lines[middle].number < number) low = middle + 1;
    else high = middle;
  }
  return low;
}

// The packet with a number, or nothing.
function packetOf(number) {
  const all = everyPacket();
  for (let at = placeOf(number, all); at < all.length && all[at].number === number; at += 1) {
    if (isRow(all[at])) return all[at];
  }
  return null;
}

// The first packet of a frame, or nothing.
function packetOfFrame(frame) {
  return everyPacket().find((it) => isRow(it) && frameOf(it.number, (it.item[8] || {}).frame) === frame) ?? null;
}

function channelOf(row) {
  const number = row.hex.length >= 4 ? parseInt(row.hex.slice(1, 4), 16) : 0;
  return number || null;
}

function listedTexts(row) {
  const codes = row.fault ? `finding ${row.fault.name}` : "";
  return `${SIDES[row.side]} ${hostOf(row.side, channelOf(row), row.packet) ?? ""} ${typeName(row.type)} ${codes}`;
}

// Whether a line of the list is looked for: sums of what is left out are only in the whole list.
function isListed(it, filter) {
  if (filter.isEmpty) return true;
  if (!isRow(it)) return false;
  const row = rowOf(it.item);
  const call = it.key.startsWith("call-") ? Number(it.key.slice(5)) : null;
  const channel = channelOf(row);
  const numbers = { call, channel, connection: connectionOf(channel, row.packet), packet: row.packet, frame: rowFrame(row),
    code: row.fault?.code };
  return filter.takes(numbers, listedTexts(row));
}

const LIST_COLUMNS = [
  [NUMBERED_BY, "number", ({ number, key }, row) => make("a", { href: `#${key}/${number}` },
    shortName(number, rowFrame(row)))],
  ["Time", "number", (it, row) => (row.time === null ? "-" : `+${decimals(row.time)} s`)],
  ["Sent by", "", (it, row) => [SIDES[row.side], row.side === 0 ? " \u2192" : " \u2190",
    hostOf(row.side, channelOf(row), row.packet) !== null && make("small", {}, hostOf(row.side, channelOf(row), row.packet))]],
  ["Channel", "number", (it, row) => channelOf(row) ?? "-"],
  ["Ladder", "", (it) => make("a", { href: `#${it.key}` }, shortKey(it.key))],
  ["What it is", "", (it, row) => packetText(row, " ").map((part) => (part instanceof Node ? part.textContent : part))],
  ["State", "", (it, row) => (row.before === row.after ? row.after : `${row.before} to ${row.after}`)],
  ["Finding", "", (it, row) => (row.fault ? make("span", { class: "found-chip" },
    word(codeTopic(row.fault.code), row.fault.code, `code ${row.fault.code}`), ` ${row.fault.name}`) : "")],
];

function listLine(it) {
  const id = `listed-${it.number}`;
  if (!isRow(it)) {
    return make("tr", { role: "row" }, make("td", { role: "cell", class: "muted", colspan: LIST_COLUMNS.length },
      `${keyName(it.key)}: ${gapLines({ run: it.item }).join(", ")}`));
  }
  const row = rowOf(it.item);
  const style = `linked ${row.fault ? "faulty" : ""} ${it.number === list.chosen ? "chosen" : ""}`;
  const open = (event) => event.target.closest("a, .word") || goTo(`${it.key}/${it.number}`);
  return make("tr", { class: style, id, role: "row", tabindex: it.number === list.chosen ? -1 : null, click: open },
    LIST_COLUMNS.map(([name, kindOf, show]) => make("td", { class: kindOf, role: "cell", "data-name": name },
      show(it, row))));
}

function drawList() {
  const { lines, from } = list;
  const to = Math.min(lines.length, from + LINES_AT_ONCE);
  place("packet-lines").replaceChildren(...lines.slice(from, to).map(listLine));
  const button = (name, at, isOff) => make("button", { type: "button", disabled: isOff, click: () => listFrom(at) },
    name);
  const last = Math.max(0, Math.floor((lines.length - 1) / LINES_AT_ONCE) * LINES_AT_ONCE);
  place("packet-pages").replaceChildren(
    button("first", 0, from === 0), button("earlier", Math.max(0, from - LINES_AT_ONCE), from === 0),
    button("later", from + LINES_AT_ONCE, to === lines.length), button("last", last, to === lines.length),
    make("span", { class: "muted" }, lines.length ? `lines ${count(from + 1)} to ${count(to)} of ${count(lines.length)}`
      : "no packet is like this"));
}

function listFrom(from) {
  list.from = from;
  drawList();
}

function filterList(text) {
  const filter = filterOf(text);
  list.lines = filter.isEmpty ? everyPacket() : everyPacket().filter((it) => isListed(it, filter));
  listFrom(0);
}

// Shows the line of a packet in the list; returns its element.
function showListed(number) {
  place("packet-filter").value = "";
  list.lines = everyPacket();
  list.chosen = number;
  const at = placeOf(number, list.lines);
  listFrom(Math.max(0, Math.floor(Math.min(at, list.lines.length - 1) / LINES_AT_ONCE) * LINES_AT_ONCE));
  return place(`listed-${number}`) || place("packets");
}

function showPackets() {
  list.lines = everyPacket();
  if (!list.lines.length) return;
  let waiting = null;
  const later = () => {
    clearTimeout(waiting);
    waiting = setTimeout(() => filterList(place("packet-filter").value), 150);
  };
  const text = make("input", { type: "search", id: "packet-filter", input: later,
    placeholder: hasHosts ? "call 4, channel 3, reset, a host" : "call 4, channel 3, reset, code 1", "aria-label": "Filter of packets" });
  const heads = LIST_COLUMNS.map(([name, kindOf]) => make("th", { class: `${kindOf} plain-head`, scope: "col",
    role: "columnheader" }, name));
  place("packets").append(make("div", { class: "section-head" }, make("h2", {}, "All packets"),
    make("div", { class: "tools" }, text)),
  make("div", { class: "card flush" }, make("div", { class: "table-room" },
    make("table", { id: "packet-table", role: "table", class: "cards" },
      make("thead", { role: "rowgroup" }, make("tr", { role: "row" }, heads)),
      make("tbody", { id: "packet-lines", role: "rowgroup" })),
    make("p", { id: "packet-pages", class: "more tools" }))));
  drawList();
}
