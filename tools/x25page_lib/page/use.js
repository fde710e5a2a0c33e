// What was waited for and what was used: requests and their time-outs, closed windows, acknowledgements, and a chart.

const CHART = { height: 120, top: 18, bottom: 22, left: 64, right: 12 };
const ENDS = {
  answered: "answered late", "given up": "no answer: the sender ended it", restart: "no answer: a restart ended it",
  open: "no answer to the end of the trace",
};

const packetLink = (key, packet, nameOf = packetName) =>
  (packet === null ? "-" : make("a", { href: `#${key}/${packet}` }, nameOf(packet)));
const lengthOf = (seconds) => (seconds === null ? "-" : length(seconds));

// A table with a heading of its own.
function addTable(id, title, words, table, more) {
  place(id).append(make("h3", {}, title), words ? make("p", { class: "muted" }, words) : "",
    make("div", { class: "card flush" }, table.element), more ?? "");
}

function requestTable() {
  const columns = [
    { name: "Time-out", value: (it) => it[0], show: (it) => [make("b", {}, word("term", it[0])), ` ${it[1]} s`] },
    { name: "Request", value: (it) => it[2] },
    { name: "Sent by", value: (it) => SIDES[it[3]] },
    number("Requests", (it) => it[4], { falls: true }),
    number("Without an answer", (it) => it[4] - it[5].answered, { falls: true }),
    number("Longer than the time-out", (it) => it[6], { falls: true }),
    { name: "Longest wait", style: "number", falls: true, value: (it) => it[7],
      show: (it) => (it[7] === null ? "-" : [lengthOf(it[7]), " ", packetLink(it[9], it[8])]) },
  ];
  return new Table("request-table", columns, facts.use.waited);
}

function waitTable() {
  const limits = new Map(facts.use.waited.map((it) => [it[0], it]));
  const columns = [
    { name: NUMBERED_BY, style: "number", value: (it) => it[1], show: (it) => packetLink(it[2], it[1], shortName) },
    { name: "Request", value: (it) => limits.get(it[0])[2] },
    { name: "Where", value: (it) => it[2], show: (it) => keyName(it[2]) },
    number("Channel", (it) => it[3]),
    { name: "Sent", style: "number", value: (it) => it[4], falls: true, show: (it) => times(it[4]) },
    { name: "Waited", style: "number", falls: true, value: (it) => it[5], show: (it) => lengthOf(it[5]) },
    { name: "Time-out", value: (it) => it[0], show: (it) => {
      const limit = limits.get(it[0])[1];
      const isLate = it[5] !== null && it[5] > limit;
      return [word("term", it[0]), `, ${limit} s`, isLate && make("small", { class: "late" }, "the wait was longer")];
    } },
    { name: "How it ended", value: (it) => ENDS[it[6]] },
  ];
  return new Table("wait-table", columns, facts.use.waits, { link: (it) => `${it[2]}/${it[1]}` });
}

function closedTable() {
  const columns = [
    { name: "Where", value: (it) => it[0], show: (it) => make("a", { href: `#${it[0]}` }, keyName(it[0])) },
    number("Channel", (it) => it[1]),
    { name: "Window of the", value: (it) => SIDES[it[2]] },
    { name: "Closed for", style: "number", falls: true, value: (it) => it[3], show: (it) => lengthOf(it[3]) },
    { name: "From", style: "number", value: (it) => it[4], show: (it) => packetLink(it[0], it[4]) },
    { name: "To", style: "number", value: (it) => it[5],
      show: (it) => (it[5] === null ? "the end" : packetLink(it[0], it[5])) },
  ];
  return new Table("closed-table", columns, facts.use.closed, { link: (it) => `${it[0]}/${it[4]}` });
}

function acknowledgedTable() {
  const lines = facts.use.acknowledged.map((it, side) => it && [side, ...it]).filter(Boolean);
  const time = (name, at) => ({ name, style: "number", value: (it) => it[at], show: (it) => lengthOf(it[at]) });
  const columns = [
    { name: "Data of the", value: (it) => SIDES[it[0]] }, number("Packets", (it) => it[1]), time("Median", 2),
    time("95th percentile", 3), time("Longest", 4),
    { name: "Where", value: (it) => it[5], show: (it) => packetLink(it[6], it[5]) },
  ];
  return lines.length ? new Table("acknowledged-table", columns, lines) : null;
}

function showWaits() {
  const { waited, waits, closed, closed_left_out: closedLeft, waits_left_out: waitsLeft } = facts.use;
  const times = acknowledgedTable();
  if (!waited.length && !times) return;
  place("waits").append(make("h2", {}, "Waits"));
  if (!facts.times.length) {
    place("waits").append(make("p", { class: "muted" }, "The trace has no times, so no wait has a length."));
  }
  if (waited.length) {
    addTable("waits", "Requests and their time-outs", "The time-outs are those of X.25 Annex D. They are no " +
      "findings: the Recommendation has them as the time after which a side may act.", requestTable());
  }
  if (waits.length) {
    addTable("waits", "Requests without an answer, or with a late one", "", waitTable(),
      leftOut(waitsLeft, "wait", "Those that are here are the longest."));
  }
  if (closed.length) {
    addTable("waits", "The longest time that a window was closed", "A window is closed while as many packets as it " +
      "allows are not acknowledged, and while the other side is not ready (RNR).", closedTable(),
    leftOut(closedLeft, "window", "Those that are here were closed for longest."));
  }
  if (times) addTable("waits", "From data to its acknowledgement", "", times);
}

// A chart of a number over time: a bar for each part, with its number where the pointer is.
function chart(title, style, value, width) {
  const { seconds, begin, parts } = facts.use.parts;
  const [height, inner] = [CHART.height - CHART.top - CHART.bottom, width - CHART.left - CHART.right];
  const perMinute = 60 / seconds;
  const all = parts.at(-1)[0] + 1;
  const most = Math.max(...parts.map(value)) * perMinute;
  const base = CHART.top + height;
  const wide = inner / all;
  const bars = parts.map((part) => {
    const rate = value(part) * perMinute;
    const high = most ? height * rate / most : 0;
    return draw("rect", { class: style, x: CHART.left + part[0] * wide, y: base - high, height: high,
      width: Math.max(1, wide - (wide > 4 ? 1 : 0)) },
    draw("title", {}, `${partName(begin + part[0] * seconds)}: ${count(Math.round(rate))} a minute`));
  });
  const label = (x, y, text, anchor) => draw("text", { class: "tick-name", x, y, "text-anchor": anchor }, text);
  return draw("svg", { class: "chart", viewBox: `0 0 ${width} ${CHART.height}`, role: "img",
    "aria-label": `${title}: at most ${count(Math.round(most))}` },
  draw("path", { class: "tick", d: `M${CHART.left} ${base}H${width - CHART.right}` }), bars,
  label(CHART.left - 6, CHART.top + 8, count(Math.round(most)), "end"), label(CHART.left - 6, base, "0", "end"),
  label(CHART.left, 12, title, "start"), label(CHART.left, CHART.height - 6, partName(begin), "start"),
  label(width - CHART.right, CHART.height - 6, partName(begin + all * seconds), "end"));
}

// When a part of the chart begins.
function partName(seconds) {
  if (!hasDates) return `${count(seconds)} s`;
  const text = new Date(seconds * 1000).toISOString();
  const isLong = facts.times.at(-1)[1] - facts.times[0][1] > 86400;
  return isLong ? `${text.slice(0, 10)} ${text.slice(11, 16)}` : text.slice(11, 19);
}

function drawCharts() {
  const room = place("charts");
  if (!room) return;
  const width = printing.width || Math.max(280, room.clientWidth - 24);
  room.replaceChildren(chart("packets a minute", "bar-packets", (part) => part[1], width),
    chart("octets of accepted data a minute", "bar-octets", (part) => part[2], width));
}

function chartTable() {
  const { seconds, begin, parts } = facts.use.parts;
  const columns = [
    { name: "From", value: (it) => it[0], show: (it) => partName(begin + it[0] * seconds) },
    number("Packets", (it) => it[1], { falls: true }),
    number("Octets of accepted data", (it) => it[2], { falls: true }),
  ];
  return new Table("chart-table", columns, parts);
}

function segmentWords() {
  return facts.use.segments.map(([octets, segments, small], side) => segments > 0 && make("li", {},
    `Data of the ${SIDES[side]}: ${(octets / segments).toFixed(1)} octets a segment. ${count(small)} of ` +
    `${plural(segments, "segment")} ${segments === 1 ? "holds" : "hold"} fewer than 32 octets.`)).filter(Boolean);
}

function causeTable() {
  const name = (it) => (it ? `${it[0]} (${it[1]})` : "-");
  const columns = [
    { name: "How they ended", value: (it) => it[0],
      show: (it) => word("end", it[0], (explained("end", it[0]) || [it[0]])[0]) },
    { name: "Cause", value: (it) => name(it[1]) }, { name: "Diagnostic", value: (it) => name(it[2]) },
    number("Calls", (it) => it[3], { falls: true }), number("Segments", (it) => it[4], { falls: true }),
    { name: "First", style: "number", value: (it) => it[5],
      show: (it) => make("a", { href: `#call-${it[5]}` }, `call ${count(it[5])}`) },
  ];
  return new Table("cause-table", columns, facts.use.causes);
}

function showUse() {
  const { parts, causes } = facts.use;
  const segments = segmentWords();
  if (!parts && !causes.length && !segments.length) return;
  place("use").append(make("h2", {}, "Use"));
  if (parts) {
    place("use").append(make("h3", {}, "Packets and octets a minute"), make("div", { class: "card", id: "charts" }),
      make("details", { class: "card" }, make("summary", {}, `The numbers of each part of ${length(parts.seconds)}`),
        chartTable().element));
    drawCharts();
  }
  if (segments.length) {
    place("use").append(make("h3", {}, "Octets a segment"), make("div", { class: "card" },
      make("p", { class: "muted" }, "A segment has up to 64 octets of one packet, and costs as much with fewer."),
      make("ul", { class: "plain" }, segments)));
  }
  if (causes.length) addTable("use", "Calls by cause", "", causeTable());
}
