// The table of calls as CSV (RFC 4180, with LF), as x25scan --calls prints it, and with the hosts where they are known.

const TABLE_HEADING = ["call", "channel", "direction", "called", "calling", "opened", "ended", "start", "seconds", "how",
  "cause", "cause_name", "diagnostic", "diagnostic_name", "data_t", "octets_t", "segments_t", "data_n", "octets_n",
  "segments_n", "pays", "payer", "findings", "gaps", "opened_frame", "ended_frame", "circuit", "dte_host", "dce_host"];

// Seconds with a point, without zeros at the end, of nanoseconds.
function secondsOf(nanoseconds) {
  const part = String(nanoseconds % 1000000000n).padStart(9, "0").replace(/0+$/, "");
  return `${nanoseconds / 1000000000n}${part && "."}${part}`;
}

const nanoseconds = (seconds) => BigInt(Math.round(seconds * 1e6)) * 1000n;
const quoted = (text) => `"${text.replaceAll('"', '""')}"`;

// A cause or a diagnostic code and its name, both empty where there is none.
function namedFields(at) {
  if (at === null) return ["", ""];
  const [value, name] = facts.names[at];
  return [value, quoted(name)];
}

function callFields(call) {
  const hasGaps = facts.header.startsWith("X25 3 ");
  return [call.call, call.channel, call.direction, call.called, call.calling, call.opened, call.ended,
    call.start === null ? null : secondsOf(BigInt(facts.begun) + nanoseconds(call.start)),
    call.seconds === null ? null : secondsOf(nanoseconds(call.seconds)), call.end,
    ...namedFields(call.cause), ...namedFields(call.diagnostic), call.dataT, call.octetsT, call.segmentsT, call.dataN,
    call.octetsN, call.segments - call.segmentsT, call.pays, call.payer, call.findings, hasGaps ? call.gaps : null,
    frameOf(call.opened) || null, (call.ended !== null && frameOf(call.ended)) || null];
}

// The connection and the hosts of both sides, where they are known.
function hostFields({ channel, opened }) {
  if (!hasHosts) return [null, null, null];
  const hosts = SIDES.map((_, side) => hostOf(side, channel, opened));
  return [connectionOf(channel, opened), ...hosts.map((it) => it && quoted(it))];
}

function callsCsv() {
  const lines = [TABLE_HEADING, ...calls.map((it) => [...callFields(it), ...hostFields(it)])];
  return lines.map((fields) => `${fields.map((it) => it ?? "").join(",")}\n`).join("");
}

// The button that saves it. The browser asks for no network: the text is in the link.
function csvButton() {
  const click = () => {
    const address = URL.createObjectURL(new Blob([callsCsv()], { type: "text/csv" }));
    make("a", { href: address, download: `${facts.name.replace(/\.[^.]*$/, "")}-calls.csv` }).click();
    URL.revokeObjectURL(address);
  };
  return make("button", { type: "button", id: "calls-csv", title: "Save all calls as CSV, as x25scan --calls prints them",
    click }, "Save as CSV");
}
