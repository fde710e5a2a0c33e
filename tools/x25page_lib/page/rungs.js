// The rungs of a ladder: an arrow for each packet between two lifelines, and next to it or below it what was wrong.

const ARROW = 24;
const LINE = 15;
const ROW = 38;
const NARROW = 640;
const COMPACT = 860;
// The fonts of a ladder's notes, and how much wider a line may become on paper than the canvas measures.
const FONT = '12.5px system-ui, "Segoe UI", Roboto, "Helvetica Neue", "DejaVu Sans", Arial, sans-serif';
const SLACK = 1.03;
const pen = document.createElement("canvas").getContext("2d");
const GAP = "\u00a0\u00a0";
const CHIP = 34;
const CHIP_HEIGHT = 20;

// Where everything is in a ladder of this width; a narrow one has its notes below the arrows.
function layout(width) {
  if (width < NARROW) {
    const [dte, dce] = [CHIP / 2 + 3, width - CHIP / 2 - 3];
    const note = dte + 24;
    return { width, isNarrow: true, dte, dce, left: dte, right: dce, number: note, note, text: 13, arrow: 42, chip: 18,
      notes: 62, row: 66, room: dce - note - 22 };
  }
  const isWide = width > COMPACT;
  const [number, time] = isWide ? [width * 0.05, width * 0.136] : [58, 150];
  const beside = isWide ? 40 : 26;
  const dte = time + 10 + 2 * beside;
  const dce = dte + Math.max(222, width * (isWide ? 0.382 : 0.3));
  const note = dce + beside + (isWide ? 38 : 24);
  return { width, isNarrow: false, dte, dce, left: dte - beside, right: dce + beside, number, time, note, text: 14,
    arrow: ARROW, chip: 0, notes: 16, row: ROW, room: width - note - 6 };
}

function phase(state) {
  if (state === "d1" || state === "p4") return "transfer";
  if (state === "p1" || state === "r1") return "ready";
  if (["p2", "p3", "p5"].includes(state)) return "set-up";
  if (["d2", "d3"].includes(state)) return "reset";
  if (["p6", "p7"].includes(state)) return "clear";
  return state[0] === "r" ? "restart" : "unknown";
}

// How wide a text of a ladder is, in the units of its drawing.
function widthOf(text, isBold) {
  pen.font = `${isBold ? "bold " : ""}${FONT}`;
  return SLACK * pen.measureText(text).width;
}

// A text in lines that are no wider than a room.
function wrapped(text, room, isBold = false) {
  const lines = [""];
  for (const part of text.split(" ").flatMap((it) => cut(it, room, isBold))) {
    const last = lines.at(-1);
    const longer = last ? `${last} ${part}` : part;
    if (last && widthOf(longer, isBold) > room) lines.push(part);
    else lines[lines.length - 1] = longer;
  }
  return lines;
}

// A word in parts that are no wider than a room, two at most.
function cut(text, room, isBold) {
  if (text.length < 8 || widthOf(text, isBold) <= room) return [text];
  const fitting = (rest) => {
    let most = Math.max(1, Math.min(rest.length, Math.floor(rest.length * room / widthOf(rest, isBold))));
    while (most > 1 && widthOf(rest.slice(0, most), isBold) > room) most -= 1;
    return most;
  };
  const first = fitting(text);
  const rest = text.slice(first);
  const second = fitting(`${rest}\u2026`);
  return [text.slice(0, first), rest.length < second ? rest : `${rest.slice(0, second - 1)}\u2026`];
}

// What is next to an arrow, line by line: the text and its style.
function notes(row, at) {
  const { more, fault } = row;
  const found = [];
  const say = (text, style = "", code = null) =>
    wrapped(text, at.room, style === "fault").forEach((line) =>
      found.push({ text: line, style, code }));
  if (fault) {
    say(`Code ${fault.code}: ${fault.name}`, "fault", fault.code);
    say(upper(fault.wrong), "wrong");
    if (fault.then) say(fault.then, "wrong");
    say(fault.clause, "clause");
  }
  if (more.cause) say(`cause ${more.cause.value} (${more.cause.name})`);
  if (more.diagnostic?.name) say(`diagnostic ${more.diagnostic.value} (${more.diagnostic.name})`);
  if (more.calling || more.called) {
    const asked = `${more.reverse ? ", reverse charging" : ""}${more.fast ? ", fast select" : ""}`;
    say(`from ${more.calling ?? "-"} to ${more.called ?? "-"}${asked}`);
  }
  if (more.c) say(`counted: ${plural(more.c, "segment")}`, "faint");
  if (more.not_counted && !fault) say(`not counted: ${reasonName(more.not_counted)}`);
  if (more.message) say(`PAD message: ${messageText(more.message)}`);
  if (!more.message && more.settings) say(settingsText(more.settings));
  return found;
}

function messageText(message) {
  const pairs = (message.pairs ||
    []).map((it) => `${it.parameter} (${it.name})${it.value === null ? "" : ` = ${it.value}`}`);
  return `${message.name.replaceAll("_", " ")} ${pairs.join(", ")}`;
}

function settingsText(settings) {
  const text = (it) => {
    const pad = `PAD of the ${SIDES[LETTERS.indexOf(it.side)]}`;
    return `${pad}: ${it.parameter} (${it.name}) ${it.word} ${it.value ?? ""}`;
  };
  return settings.map(text).join("; ");
}

// The name of a packet and its fields, with commas between these; with marks each bit is an element of its own.
function packetText(row, gap = GAP) {
  const { more } = row;
  const fields = [];
  if (more.s !== undefined) fields.push(`P(S) ${more.s}`);
  if (more.r !== undefined) fields.push(`P(R) ${more.r}`);
  for (const [bit, letter] of [["m", "M"], ["d", "D"], ["q", "Q"]]) {
    if (more[bit]) fields.push(draw("tspan", { class: "bit" }, letter));
  }
  if (more.o !== undefined && row.type === "data") fields.push(plural(more.o, "octet"));
  const name = draw("tspan", { class: "type" }, typeName(row.type).toUpperCase());
  return [name, ...fields.flatMap((field, at) => [at ? `,${gap}` : gap, field])];
}

function stateChip(state, x, y) {
  return drawnWord("state", state, { class: `state ${phase(state)}` },
    draw("rect", { x: x - CHIP / 2, y: y - CHIP_HEIGHT / 2, width: CHIP, height: CHIP_HEIGHT, rx: CHIP_HEIGHT / 2 }),
    draw("text", { x, y: y + 4, "text-anchor": "middle" }, state === "unknown" ? "?" : state));
}

function lifelines(at, y, height, state) {
  return [at.dte, at.dce].map((x) => draw("rect", { class: `life ${phase(state)}`, x: x - 3, y, width: 6, height }));
}

function arrow(row, at, y) {
  const [from, to] = row.side === 0 ? [at.dte + 4, at.dce - 5] : [at.dce - 4, at.dte + 5];
  const back = row.side === 0 ? -9 : 9;
  const [begin, end] = [y + at.arrow - 3, y + at.arrow + 3];
  return draw("path", { class: "arrow",
    d: `M${from} ${begin}L${to} ${end}M${to + back} ${end - 5}L${to} ${end}L${to + back} ${end + 4}` });
}

function noteLines(lines, at, y) {
  return lines.map((note, place) => {
    const line = draw("text", { class: `note ${note.style}`, x: at.note, y: y + at.notes + place * LINE }, note.text);
    return note.code ? drawnWord(codeTopic(note.code), note.code, {}, line) : line;
  });
}

// The number of a packet and its time: before the arrow, or above it in a narrow ladder.
function numberAndTime(row, at, y, begun) {
  const time = row.time === null ? "" : `+${decimals(row.time - begun)} s`;
  const frame = rowFrame(row);
  const name = count(frame || row.packet);
  if (at.isNarrow) {
    return [draw("text", { class: "packet", x: at.number, y: y + at.text }, name,
      draw("tspan", { class: "time", dx: 10 }, time))];
  }
  const line = y + at.arrow + 4;
  return [draw("text", { class: "packet", x: at.number, y: line, "text-anchor": "end" }, name),
    draw("text", { class: "time", x: at.time, y: line, "text-anchor": "end" }, time)];
}

function kind(row) {
  if (row.fault) return "faulty";
  if (row.type === "data") return "data";
  if (FLOWING.has(row.type) || row.type === "rej") return "flow";
  return /^(reset|restart|clear|diag)/.test(row.type) ? "ending" : "calling";
}

// How high a row is: its notes and its chips lie in it, so that the next row is not drawn over them.
function rowHeight(row, lines, at) {
  const height = at.isNarrow ? at.row + lines.length * LINE : Math.max(at.row, 12 + lines.length * LINE);
  return row.before === row.after ? height : Math.max(height, at.arrow + at.chip + CHIP_HEIGHT / 2 + 3);
}

// The drawing of a row, and how high it is.
function drawRow(row, at, y, begun) {
  const lines = notes(row, at);
  const height = rowHeight(row, lines, at);
  const label = { class: "label", x: (at.dte + at.dce) / 2, y: y + (at.isNarrow ? 33 : at.text),
    "text-anchor": "middle" };
  const parts = [
    draw("rect", { class: "back", x: 1.5, y: y + 1, width: at.width - 3, height: height - 2, rx: 5 }),
    ...numberAndTime(row, at, y, begun),
    ...lifelines(at, y, at.arrow, row.before), ...lifelines(at, y + at.arrow, height - at.arrow, row.after),
    arrow(row, at, y), draw("text", label, packetText(row, at.isNarrow ? " " : GAP)),
    ...(row.before !== row.after ? [at.left, at.right].map((x) => stateChip(row.after, x, y + at.arrow + at.chip))
      : []),
    ...noteLines(lines, at, y),
  ];
  const code = row.fault ? `, code ${row.fault.code}` : "";
  const name = `${upper(rowName(row))}, ${SIDES[row.side]}, ${typeName(row.type)}${code}`;
  return [draw("g", { class: `row ${kind(row)}`, id: `row-${row.packet}`, tabindex: -1, role: "button",
    "aria-label": name, click: () => goTo(`${shown.key}/${row.packet}`) }, parts), height];
}

function runText(run) {
  const parts = SIDES.map((side,
    at) => (run.data[at] ? `${side}: ${count(run.data[at])} data, ${plural(run.octets[at], "octet")}` : null));
  const other = run.packets - run.data[0] - run.data[1];
  if (other) parts.push(plural(other, "other"));
  if (run.gaps) parts.push(plural(run.gaps, "gap"));
  return parts.filter(Boolean).join(" \u00b7 ");
}

function sumsOf(rows) {
  const run = { packets: rows.length, data: [0, 0], octets: [0, 0] };
  for (const { row } of rows.filter((it) => it.row.type === "data")) {
    run.data[row.side] += 1;
    run.octets[row.side] += row.more.o;
  }
  return run;
}

// The lines of a gap: rows that are folded here, or left out of the page.
function gapLines(item) {
  const run = item.run || sumsOf(item.fold);
  const codes = Object.entries(run.findings || {}).map(([code, many]) => `code ${code} ${times(many)}`).join(", ");
  const [first, last] = run.frames ?? [];
  const what = item.run ? `${plural(run.packets, "packet")} left out, ${packetName(run.first, frameOf(run.first, first))} ` +
    `to ${packetName(run.last, frameOf(run.last, last))}`
    : `${plural(run.packets, "packet")} without a finding${printing.width ? "" : ": click to see them"}`;
  return [what, codes || runText(run)];
}

// The drawing of a gap, and how high it is.
function drawGap(item, at, y, state) {
  const inner = at.dce - at.dte - 28;
  const [first, second] = gapLines(item).map((text) => wrapped(text, inner - 12));
  const height = 20 + LINE * (first.length + second.length);
  const line = (text, place) => draw("text", { class: place < first.length ? "" : "faint", x: (at.dte + at.dce) / 2,
    y: y + 20 + place * LINE, "text-anchor": "middle" }, text);
  const attributes = item.fold ? { class: "gap fold", tabindex: -1, role: "button", click: () => unfold(item) }
    : { class: "gap" };
  return [draw("g", attributes, ...lifelines(at, y, height, state),
    draw("rect", { class: "gap-room", x: at.dte + 14, y: y + 4, width: inner, height: height - 8, rx: 8 }),
    [...first, ...second].map(line)), height];
}

// The drawing of a gap in the recording, and how high it is: a break in both lifelines, with what is missing.
function drawMissing(gap, at, y) {
  const inner = at.dce - at.dte - 28;
  const text = gapName(gap.missing, gap.channel, frameOf(gap.missing, gap.frame));
  const lines = wrapped(text, inner - 12);
  const height = 20 + LINE * lines.length;
  const breaks = [at.dte, at.dce].map((x) => draw("path", { class: "missing-break",
    d: `M${x - 7} ${y + 9}l14 -6M${x - 7} ${y + height - 3}l14 -6` }));
  return [draw("g", { class: "missing" }, breaks, lines.map((line, place) => draw("text",
    { x: (at.dte + at.dce) / 2, y: y + 18 + place * LINE, "text-anchor": "middle" }, line))), height];
}

function ladderHead(at) {
  const head = (x, name, letter) => drawnWord("side", letter, { class: "head" },
    draw("rect", { x: x - 24, y: 6, width: 48, height: 28, rx: 6 }),
    draw("text", { x, y: 25, "text-anchor": "middle" }, name));
  const title = (x, name, anchor) => draw("text", { class: "column", x, y: 25, "text-anchor": anchor }, name);
  const columns = at.isNarrow ? [] : [title(at.number, NUMBERED_BY.toLowerCase(), "end"),
    title(at.time, facts.times.length ? "time" : "", "end"), title(at.note, "what it did", "start")];
  const edge = (x) => Math.min(Math.max(x, 25), at.width - 25);
  return draw("svg", { class: "ladder", viewBox: `0 0 ${at.width} 40`, role: "group",
    "aria-label": "Heads of the ladder" }, columns,
    head(edge(at.dte), "DTE", "T"), head(edge(at.dce), "DCE", "N"));
}
