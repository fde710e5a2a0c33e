"use strict";
// The facts of the page, and how words and numbers of them become elements. Text of a trace is only ever text.

const facts = JSON.parse(document.getElementById("facts").textContent);
const SVG = "http://www.w3.org/2000/svg";
const SIDES = ["DTE", "DCE"];
const LETTERS = ["T", "N"];
// How wide the page is drawn on paper, in the units of a drawing: A4 and Letter have as much between their margins.
const PAPER = 690;
const printing = { width: null };

function fill(element, attributes, children) {
  for (const [name, value] of Object.entries(attributes)) {
    if (typeof value === "function") element.addEventListener(name, value);
    else if (value !== undefined && value !== null && value !== false) element.setAttribute(name,
      value === true ? "" : value);
  }
  element.append(...children.flat(Infinity).filter((child) => child !== null && child !== undefined &&
    child !== false && child !== ""));
  return element;
}

const make = (tag, attributes = {}, ...children) => fill(document.createElement(tag), attributes, children);
const draw = (tag, attributes = {}, ...children) => fill(document.createElementNS(SVG, tag), attributes, children);
const place = (id) => document.getElementById(id);

const count = (many) => many.toLocaleString("en");
const plural = (many, noun) => `${count(many)} ${noun}${many === 1 ? "" : "s"}`;
const times = (many) => (many === 1 ? "once" : many === 2 ? "twice" : `${count(many)} times`);
const upper = (text) => text.charAt(0).toUpperCase() + text.slice(1);

// The explanation of a word: its name and its sentences, or nothing.
function explained(topic, word) {
  const words = facts.texts[topic] || {};
  return Object.hasOwn(words, word) ? words[word] : null;
}

const codeTopic = (code) => (explained("code", code) ? "code" : "message");

// A word with an explanation at its place.
function word(topic, value, shown = value, style = "") {
  if (!explained(topic, value)) return make("span", { class: style }, String(shown));
  const attributes = { class: `word ${style}`, tabindex: 0, "data-topic": topic, "data-word": value };
  return make("span", attributes, String(shown));
}

// The same in a drawing.
function drawnWord(topic, value, attributes, ...children) {
  if (!explained(topic, value)) return draw("g", attributes, ...children);
  return draw("g", { ...attributes, tabindex: 0, "data-topic": topic, "data-word": value }, ...children);
}

function showHint(element) {
  const { topic, word: value } = element.dataset;
  const meaning = explained(topic, value);
  if (!meaning) return;
  const hint = place("hint");
  hint.replaceChildren(
    make("p", { class: "hint-head" }, make("b", {}, value), " ", meaning[0]),
    ...meaning[1].map((sentence) => make("p", { class: sentence.startsWith("Clause: ") ? "clause" : null }, sentence)),
  );
  hint.hidden = false;
  const box = element.getBoundingClientRect();
  const below = box.bottom + hint.offsetHeight + 12 < window.innerHeight;
  hint.style.left = `${Math.max(8, Math.min(box.left, window.innerWidth - hint.offsetWidth - 8))}px`;
  hint.style.top = `${below ? box.bottom + 6 : Math.max(8, box.top - hint.offsetHeight - 6)}px`;
}

function hideHint() {
  place("hint").hidden = true;
}

function listenForWords() {
  const over = (event) => {
    const element = event.target.closest?.("[data-word]");
    if (element) showHint(element);
    else hideHint();
  };
  for (const name of ["pointerover", "focusin"]) document.addEventListener(name, over);
  document.addEventListener("focusout", hideHint);
  document.addEventListener("scroll", hideHint, { passive: true });
}

// Times. The page has seconds after the first time of the trace; that one is in nanoseconds since 1970.
const EARLIEST_DATE = 10n ** 17n;
const hasDates = facts.begun !== null && BigInt(facts.begun) > EARLIEST_DATE;

function decimals(seconds, most = 6) {
  return seconds.toFixed(most).replace(/\.?0+$/, "") || "0";
}

function clock(seconds) {
  if (!hasDates) return `${decimals(Number(BigInt(facts.begun)) / 1e9 + seconds)} s`;
  const all = BigInt(facts.begun) + BigInt(Math.round(seconds * 1e9));
  const date = new Date(Number(all / 1000000n)).toISOString();
  const micros = String(all % 1000000n / 1000n).padStart(3, "0");
  return `${date.slice(0, 10)} ${date.slice(11, 23)}${micros === "000" ? "" : micros} UTC`;
}

function shortClock(seconds) {
  return hasDates ? clock(seconds).slice(11, 19) : `${decimals(seconds, 1)} s`;
}

function length(seconds) {
  if (seconds < 1) return `${decimals(seconds * 1000, 1)} ms`;
  if (seconds < 120) return `${decimals(seconds, 2)} s`;
  const minutes = Math.floor(seconds / 60);
  if (minutes < 120) return `${minutes} min ${Math.round(seconds % 60)} s`;
  return `${count(Math.floor(minutes / 60))} h ${minutes % 60} min`;
}

// Packets: the types of x25scan in words.
const TYPES = {
  rr: "RR", rnr: "RNR", rej: "REJ", cut: "too short a packet", wrong_format: "packet of another format",
  unassigned: "packet on an unassigned channel", no_type: "packet without a type", undefined: "undefined packet",
  restart_on_channel: "restart packet on a channel",
};
const typeName = (type) => (Object.hasOwn(TYPES, type) ? TYPES[type] : type.replaceAll("_", " "));

const REASONS = {
  finding: "with a finding",
  indication_owed: "while the DCE owed its indication",
  not_in_data_transfer: "outside of data transfer",
  discarded: "discarded during a reset or a clear",
  unknown: "while the state of the channel was not known",
  restart: "during a restart",
};
const reasonName = (reason) => (Object.hasOwn(REASONS, reason) ? REASONS[reason] : reason.replaceAll("_", " "));

// The frame of a packet, or 0 where it is not known; its row may have it.
const hasFrames = facts.framed !== null;
const frameOf = (packet, ofRow) => ofRow ?? facts.frames[packet] ?? (hasFrames && packet >= facts.framed ? packet : 0);
const rowFrame = (row) => frameOf(row.packet, row.more.frame);

// What a packet is called: by its frame where that is known, with its own number where that is another one.
function packetName(packet, frame = frameOf(packet)) {
  const own = `packet ${count(packet)}`;
  if (!frame) return own;
  return `frame ${count(frame)}${frame === packet ? "" : ` (${own})`}`;
}

// The same below a heading that says what the number is of.
const NUMBERED_BY = hasFrames ? "Frame" : "Packet";
const NUMBER_WORD = hasFrames ? { word: "frame", topic: "term" } : { word: "packet" };
function shortName(packet, frame = frameOf(packet)) {
  if (!frame) return hasFrames ? `packet ${count(packet)}` : count(packet);
  return frame === packet ? count(frame) : `${count(frame)} (packet ${count(packet)})`;
}

const rowName = (row) => packetName(row.packet, rowFrame(row));
const spanName = (first, last) => `${packetName(first)} to ${last ? packetName(last) : "the end"}`;

// A row of the page, by name.
function rowOf(array) {
  const [packet, side, type, before, after, time, hex, octets, more] = array;
  return {
    packet, side, time, hex, octets, more: more || {},
    type: facts.types[type], before: facts.states[before], after: facts.states[after],
    fault: more && more.f ? faultOf(more.f) : null,
  };
}

function faultOf([at, wrong]) {
  const [code, name, then, clause] = facts.faults[at];
  return { code, name, then, clause, wrong };
}

// A call of the page, by name.
function callOf(array) {
  const [call, epoch, channel, direction, called, calling, opened, up, ended, how, dataT, octetsT, dataN, octetsN,
    segments,
    pays, payer, clearedBy, cause, diagnostic, codes, start, seconds, gaps, segmentsT] = array;
  let findings = 0;
  for (const code in codes) findings += codes[code];
  return { call, epoch, channel, direction, called, calling, opened, up, ended, how, dataT, octetsT, dataN, octetsN,
    segments,
    pays, payer, clearedBy, cause, diagnostic, codes, start, seconds, gaps, segmentsT, findings, data: dataT + dataN, end: how };
}

const calls = facts.calls.map(callOf);
const callsByNumber = new Map(calls.map((call) => [call.call, call]));
// The packet that ended these calls is not in the trace.
for (const number of facts.unrecorded_ends) Object.assign(callsByNumber.get(number) ?? {}, { how: "not recorded" });
// The connections of these calls ended before a clear.
for (const [number, frame] of facts.cut_off) {
  Object.assign(callsByNumber.get(number) ?? {}, { how: "connection ended without a clear", cutOff: frame });
}

// What a ladder is of.
function keyName(key) {
  if (key === "interface") return "The interface: restarts, and packets of no channel";
  const number = Number(key.slice(key.indexOf("-") + 1));
  if (key.startsWith("call-")) return `Call ${number}`;
  const permanent = facts.numbers.find(([name]) => name === "PVC");
  const isPermanent = permanent && number <= Number(permanent[1]);
  return `Channel ${number}, ${isPermanent ? "a permanent circuit" : "outside of calls"}`;
}

// What a gap is: of which channel packets may be missing, and the frame that shows it, or its row.
function gapName(row, channel, frame = frameOf(row)) {
  const where = channel === null ? "any channel" : `channel ${channel}`;
  return `Packets on ${where} may be missing here (${frame ? `frame ${count(frame)}` : `row ${count(row)}`}).`;
}

// The same in few letters.
function shortKey(key) {
  return key === "interface" ? "Interface" : upper(key.replace("-", " "));
}

function causeName(at) {
  if (at === null) return null;
  const [value, name] = facts.names[at];
  return `${value} (${name})`;
}
