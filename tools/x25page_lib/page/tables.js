// The tables: calls, findings, accounts, PAD settings and words. Each shows some lines at a time, and can be sorted.

const AT_ONCE = 50;
// The lines of a table that stands before the drawings.
const FEW = 10;

function compare(a, b) {
  if (a === b) return 0;
  if (a === null || a === undefined) return 1;
  if (b === null || b === undefined) return -1;
  if (typeof a === "number" && typeof b === "number") return a - b;
  return String(a).localeCompare(String(b), "en", { numeric: true });
}

// A table: each column has a name, the value that it is sorted by, and what a cell shows.
class Table {
  constructor(name, columns, lines, options = {}) {
    Object.assign(this, { name, columns, all: lines, lines, options, shown: AT_ONCE, by: null, falling: false });
    this.atOnce = this.shown = options.atOnce ?? AT_ONCE;
    this.body = make("tbody", { role: "rowgroup" });
    this.head = make("tr", { role: "row" }, columns.map((column, at) => this.heading(column, at)));
    this.more = make("p", { class: "more" });
    this.element = make("div", { class: "table-room" },
      make("table", { id: name, role: "table", class: "cards" }, make("thead", { role: "rowgroup" }, this.head),
        this.body), this.more);
    this.draw();
  }

  heading(column, at) {
    const act = () => this.sort(at);
    const shown = column.word ? word(column.topic ?? "field", column.word, column.name) : column.name;
    return make("th", { class: column.style, scope: "col", role: "columnheader" },
      make("button", { type: "button", class: "sort", click: act }, shown));
  }

  sort(at) {
    this.falling = this.by === at ? !this.falling : Boolean(this.columns[at].falls);
    this.by = at;
    const value = this.columns[at].value;
    this.lines = [...this.lines].sort((a,
      b) => (this.falling ? compare(value(b), value(a)) : compare(value(a), value(b))));
    [...this.head.children].forEach((cell, place) => {
      if (place === at) cell.setAttribute("aria-sort", this.falling ? "descending" : "ascending");
      else cell.removeAttribute("aria-sort");
    });
    this.draw();
  }

  filter(wanted) {
    this.lines = this.all.filter(wanted);
    this.shown = this.atOnce;
    if (this.by !== null) {
      this.falling = !this.falling;
      this.sort(this.by);
    }
    this.draw();
  }

  draw() {
    const shown = printing.width ? Math.max(this.shown, AT_ONCE) : this.shown;
    this.body.replaceChildren(...this.lines.slice(0, shown).map((line) => this.line(line)));
    const rest = this.lines.length - shown;
    const act = () => { this.shown += 4 * AT_ONCE; this.draw(); };
    this.more.replaceChildren(...(rest > 0
      ? [make("button", { type: "button", click: act }, `${count(Math.min(rest, 4 * AT_ONCE))} more of ${count(rest)}`),
        make("span", { class: "on-paper" }, `${count(rest)} more are not printed`)] : []));
    if (!this.lines.length) this.body.append(make("tr", {},
      make("td", { colspan: this.columns.length, class: "muted" }, "None.")));
  }

  line(line) {
    const link = this.options.link?.(line);
    const attributes = link ? { class: "linked",
      click: (event) => event.target.closest("a, .word") || goTo(link) } : {};
    return make("tr", { role: "row", ...attributes }, this.columns.map((column) => make("td",
      { class: column.style, role: "cell", "data-name": column.name },
      column.show ? column.show(line) : column.value(line) ?? "-")));
  }
}

function leftOut(many, noun, advice) {
  return many ? make("p", { class: "left-out" },
    `${plural(many, noun)} ${many === 1 ? "is" : "are"} left out to keep the page small. ${advice}`) : null;
}

function howEnded(call) {
  const parts = [word("end", call.how, (explained("end", call.how) || [call.how])[0])];
  if (call.cutOff) parts.push(`, frame ${call.cutOff}`);
  const cause = causeName(call.cause);
  const diagnostic = causeName(call.diagnostic);
  if (cause) parts.push(make("small", {}, `cause ${cause}`));
  if (diagnostic) parts.push(make("small", {}, `diagnostic ${diagnostic}`));
  return parts;
}

function codesOf(call) {
  const codes = Object.entries(call.codes || {});
  if (!codes.length) return call.findings ? count(call.findings) : make("span", { class: "muted" }, "none");
  return codes.map(([code, many]) => make("span", { class: "found-chip" }, word(codeTopic(code), code, `code ${code}`),
    many > 1 ? ` \u00d7 ${count(many)}` : ""));
}

const number = (name, value, more = {}) => ({ name, value, style: "number",
  show: (it) => (value(it) === null ? "-" : count(value(it))), ...more });

// The link to the ladder of a call, which says where the page has none.
function callLink({ call }) {
  const isThere = Object.hasOwn(facts.ladders, `call-${call}`);
  return [make("a", { href: `#call-${call}` }, count(call)),
    !isThere && make("small", { class: "no-ladder" }, "ladder left out")];
}

const openerOf = (call) => (call.direction === "out" ? 0 : 1);

function smallHost(side, call) {
  const host = hostOf(side, call.channel, call.opened);
  return host !== null && make("small", { class: "host" }, host);
}

function callColumns() {
  const hasTimes = facts.times.length > 0;
  return [
    { name: "Call", word: "call", value: (it) => it.call, style: "number", show: callLink },
    { name: "Findings", word: "findings", value: (it) => it.findings, falls: true, show: codesOf },
    number("Channel", (it) => it.channel, { word: "channel",
      show: (it) => [count(it.channel), smallConnection(it.channel, it.opened)] }),
    { name: "From", word: "calling", value: (it) => it.calling, style: "address" },
    { name: "To", word: "called", value: (it) => it.called, style: "address" },
    { name: "By", word: "direction", value: (it) => it.direction,
      show: (it) => [word("direction", it.direction, it.direction === "out" ? "DTE" : "DCE"), smallHost(openerOf(it), it)] },
    hasTimes ? { name: "Start", style: "number", value: (it) => it.start,
      show: (it) => (it.start === null ? "-" : clock(it.start).slice(hasDates ? 11 : 0).replace(" UTC", "")) }
      : number(`${NUMBERED_BY}s from`, (it) => it.opened, { word: "opened", show: (it) => shortName(it.opened) }),
    hasTimes ? { name: "Length", value: (it) => it.seconds, falls: true, style: "number",
      show: (it) => (it.seconds === null ? "-" : length(it.seconds)) }
      : number("to", (it) => it.ended, { word: "ended", show: (it) => (it.ended === null ? "-" : shortName(it.ended)) }),
    number("Data packets", (it) => it.data, { falls: true }),
    number("Octets", (it) => it.octetsT + it.octetsN, { falls: true }),
    number("Segments", (it) => it.segments, { word: "segments", falls: true }),
    { name: "Pays", value: (it) => it.payer, show: (it) => [it.payer ?? "-", make("small", {}, it.pays)] },
    { name: "How it ended", word: "how", style: "ending", value: (it) => it.how, show: howEnded },
  ];
}

// Whether a call is looked for.
function isSought(call, filter) {
  const numbers = { call: call.call, channel: call.channel, connection: connectionOf(call.channel, call.opened),
    code: Object.keys(call.codes || {}) };
  const texts = [call.calling, call.called, call.payer, causeName(call.cause), causeName(call.diagnostic),
    ...SIDES.map((_, side) => hostOf(side, call.channel, call.opened))];
  return filter.takes(numbers, texts.join(" "));
}

function showCalls() {
  const table = new Table("call-table", callColumns(), calls, { link: (call) => `call-${call.call}` });
  const text = make("input", { type: "search", id: "call-filter", placeholder: hasConnections ? "address, host, connection 3" : "address, channel 3, call 4, cause",
    "aria-label": "Filter of calls" });
  const found = make("input", { type: "checkbox", id: "call-found" });
  const how = make("select", { id: "call-how", "aria-label": "How the call ended" },
    make("option", { value: "" }, "ended in any way"),
    [...new Set(calls.map((call) => call.how))].sort().map((it) => make("option", { value: it },
      (explained("end", it) || [it])[0])));
  const total = make("span", { class: "muted" });
  const update = () => {
    const filter = filterOf(text.value);
    table.filter((call) => isSought(call, filter) && (!found.checked || call.findings) &&
      (!how.value || call.how === how.value));
    const segments = table.lines.reduce((sum, call) => sum + call.segments, 0);
    total.textContent = `${plural(table.lines.length, "call")}, ${plural(segments, "segment")}`;
  };
  for (const element of [text, found, how]) element.addEventListener("input", update);
  place("calls").append(make("div", { class: "section-head" }, make("h2", {}, "Calls"),
    make("div", { class: "tools" }, text, how, make("label", {}, found, " with findings"), total, csvButton())),
  make("div", { class: "card flush" }, table.element),
    leftOut(facts.left_out.calls, "call", "x25scan --calls has all of them.") ?? "");
  update();
}

// The table of findings, which has more lines on paper.
const findingTable = { table: null };

// The packet of a finding: its kind, the state in which it came, and its values.
function foundPacketText([, , , , , , values, , kindAt, stateAt]) {
  const state = facts.states[stateAt];
  return [make("b", {}, typeName(facts.types[kindAt]).toUpperCase()), " in ", word("state", state, state),
    values && make("small", {}, values)];
}

function showFindings() {
  if (!facts.marks.length) return;
  const columns = [
    { name: NUMBERED_BY, ...NUMBER_WORD, style: "number", value: (it) => it[0],
      show: (it) => make("a", { href: `#${it[4]}/${it[0]}` }, shortName(it[0])) },
    { name: "Sent by", word: "side", value: (it) => it[1], style: hasHosts ? "sender" : "", show: (it) => sideWithHost(it[1], it[2], it[0]) },
    { name: "Packet", value: (it) => facts.types[it[8]], style: "found-packet", show: foundPacketText },
    { name: "Code", word: "code", value: (it) => it[3],
      show: (it) => [word(codeTopic(it[3]), it[3], it[3], "code"), " ",
      (explained(codeTopic(it[3]), it[3]) || [""])[0]] },
    { name: "What was wrong", value: (it) => upper(it[5]) },
    { name: "Where", value: (it) => it[4], show: (it) => [keyName(it[4]), smallConnection(it[2], it[0])] },
  ];
  if (facts.following.some(Boolean)) {
    columns.push({ name: "May follow from", style: "number", value: (it) => it[7],
      show: (it) => (it[7] === null ? "-" : make("a", { href: `#packets/${it[7]}` }, shortName(it[7]))) });
  }
  const table = findingTable.table = new Table("finding-table", columns, facts.marks, { link: (it) => `${it[4]}/${it[0]}`, atOnce: FEW });
  place("findings").append(make("h2", {}, "Findings"), make("div", { class: "card flush" }, table.element),
    leftOut(facts.left_out.marks, "finding", "x25scan prints all of them.") ?? "");
  showFoundChannels();
}

// How many findings the channels have, the most first.
function showFoundChannels() {
  if (!facts.found_channels.length) return;
  const columns = [
    { name: "Channel", word: "channel", style: "number", value: (it) => it[0],
      show: (it) => (it[0] === null ? "none: the interface" : count(it[0])) },
    number("Findings", (it) => it[1] + it[2], { word: "findings", falls: true }),
    number("of the DTE", (it) => it[1], { falls: true }), number("of the DCE", (it) => it[2], { falls: true }),
    { name: "First", value: (it) => it[3], style: "number",
      show: (it) => make("a", { href: `#${it[4]}/${it[3]}` }, packetName(it[3])) },
  ];
  const table = new Table("channel-table", columns, facts.found_channels, { link: (it) => `${it[4]}/${it[3]}`, atOnce: FEW });
  place("findings").append(make("details", { class: "card" }, make("summary", {}, "Findings by channel",
    make("small", {}, plural(facts.found_channels.length, "channel"))), table.element),
    leftOut(facts.left_out.found_channels, "channel", "x25scan --rows has all findings.") ?? "");
}

// Calls that both ends had, and that no sum has.
function showUnjudged() {
  if (!facts.unjudged.length) return;
  const why = ([, , , , , , , , , , , code, state, waitsFor, key]) => {
    const channel = ["the channel was in ", word("state", state, state)];
    if (waitsFor !== null) return [...channel, ", where the DCE had not reacted to ", packetLink(key, waitsFor)];
    return code === null ? channel : ["its request has a finding: ", word(codeTopic(code), code, `code ${code}`)];
  };
  const columns = [
    { name: NUMBERED_BY, ...NUMBER_WORD, style: "number", value: (it) => it[4],
      show: (it) => make("a", { href: `#${it[14]}/${it[4]}` }, shortName(it[4])) },
    number("Channel", (it) => it[0], { word: "channel", show: (it) => [count(it[0]), smallConnection(it[0], it[4])] }),
    { name: "From", word: "calling", value: (it) => it[2], style: "address" },
    { name: "To", word: "called", value: (it) => it[3], style: "address" },
    { name: "By", value: (it) => it[1], show: (it) => sideWithHost(it[1], it[0], it[4]) },
    number("Data packets", (it) => it[7] + it[8], { falls: true }),
    number("Octets of the DTE", (it) => it[9], { falls: true }), number("of the DCE", (it) => it[10], { falls: true }),
    { name: "How it ended", value: (it) => it[6], show: (it) => [word("end", it[6], (explained("end", it[6]) || [it[6]])[0]),
      it[5] !== null && make("small", {}, packetName(it[5]))] },
    { name: "Why it was not judged", value: (it) => it[13], show: why },
  ];
  const table = new Table("unjudged-table", columns, facts.unjudged, { link: (it) => `${it[14]}/${it[4]}` });
  place("unjudged").append(make("h2", {}, "Calls that were not judged"),
    make("p", { class: "muted" }, "The other side accepted them, and their data is in no sum: the request broke the protocol, or ",
      "it came where the channel waits for the DCE to reset or clear it."),
    make("div", { class: "card flush" }, table.element), leftOut(facts.left_out.unjudged, "call", "") ?? "");
}

function showAccounts() {
  const columns = [
    { name: "Address", word: "address", style: "address", value: (it) => it[0],
      show: (it) => it[0] ?? make("span", { class: "muted" }, "no address") },
    number("Calls", (it) => it[1], { word: "calls", falls: true }),
    number("Segments", (it) => it[2], { word: "segments", falls: true }),
  ];
  const table = new Table("account-table", columns, facts.accounts);
  place("accounts").append(make("h2", {}, "Who pays"),
    make("p", { class: "muted" },
      "The called address pays where the call asks for reverse charging, otherwise the calling one."),
    make("div", { class: "card flush" }, table.element),
      leftOut(facts.left_out.accounts, "account", "x25scan prints all of them.") ?? "");
}

function showSettings() {
  if (!facts.settings.length) return;
  const columns = [
    { name: "Call", word: "call", style: "number", value: (it) => it[0],
      show: (it) => make("a", { href: `#call-${it[0]}` }, count(it[0])) },
    { name: "PAD of the", word: "side", value: (it) => it[1],
      show: (it) => word("side", it[1], SIDES[LETTERS.indexOf(it[1])]) },
    { name: "Parameter", word: "parameter", value: (it) => it[2],
      show: (it) => [word("parameter", String(it[2]), String(it[2]), "code"), " ",
      (explained("parameter", String(it[2])) || [""])[0]] },
    { name: "Known how", word: "word", value: (it) => it[3], show: (it) => word("setting", it[3]) },
    number("Value", (it) => it[4], { word: "value" }),
  ];
  const table = new Table("setting-table", columns, facts.settings);
  place("settings").append(make("h2", {}, "PAD settings"),
    make("p", { class: "muted" }, "What is known of each PAD at the end of its call."),
    make("div", { class: "card flush" }, table.element),
      leftOut(facts.left_out.settings, "setting", "x25scan prints all of them.") ?? "");
}

function glossary(topic, title, words) {
  const known = words.filter((it) => explained(topic, it));
  if (!known.length) return null;
  return make("details", { class: "card", open: topic === "code" }, make("summary", {}, title),
    make("dl", {}, known.map((it) => {
    const [name, sentences] = explained(topic, it);
    return [make("dt", {}, make("b", {}, it), " ", name),
      make("dd", {}, sentences.map((sentence) => make("p",
      { class: sentence.startsWith("Clause: ") ? "clause" : null }, sentence)))];
  })));
}

function showWords() {
  const codes = facts.codes.map((it) => it[0]);
  const parameters = [...new Set(facts.settings.map((it) => String(it[2])))];
  const parts = [
    glossary("code", "The codes of this trace", codes.filter((it) => codeTopic(it) === "code")),
    glossary("message", "The codes of PAD messages of this trace", codes.filter((it) => codeTopic(it) === "message")),
    glossary("state", "The states of this trace", facts.states),
    glossary("end", "How calls end", Object.keys(facts.texts.end || {})),
    glossary("parameter", "The PAD parameters of this trace", parameters),
    glossary("header", "The words of the header", facts.numbers.map((it) => it[0])),
    glossary("term", "Terms", Object.keys(facts.texts.term || {})),
    glossary("field", "The fields of the tables", Object.keys(facts.texts.field || {})),
  ];
  place("words").append(make("h2", {}, "Words"), ...parts.filter(Boolean));
}
