// What is known of one packet: all that x25scan says of it, and its octets.

const BITS = { m: "M: more data of the same sequence follows", d: "D: the far side has to confirm it",
  q: "Q: data for a PAD, not for its user" };

function dump(hex) {
  const lines = [];
  const inLine = (printing.width || window.innerWidth) < NARROW ? 8 : 16;
  for (let at = 0; at < hex.length; at += 2 * inLine) {
    const octets = hex.slice(at, at + 2 * inLine).match(/../g) || [];
    const text = octets.map((it) => { const code = parseInt(it, 16); return code >= 32 &&
      code < 127 ? String.fromCharCode(code) : "."; }).join("");
    lines.push(`${(at / 2).toString(16).padStart(4, "0")}  ${octets.join(" ").padEnd(3 * inLine)} ${text}`);
  }
  return lines.join("\n");
}

function octetsOf(row) {
  if (!row.octets) return make("p", { class: "muted" }, "The packet has no octet.");
  const rest = row.octets - row.hex.length / 2;
  return make("details", { class: "octets" }, make("summary", {}, `${plural(row.octets, "octet")} in hex`),
    make("pre", {}, dump(row.hex)),
    rest > 0 && make("p", { class: "left-out" },
      `${plural(rest, "further octet")} ${rest === 1 ? "is" : "are"} left out to keep the page small.`));
}

function faultCard(fault, side) {
  return make("div", { class: "fault-card" },
    make("p", {}, make("b", {}, word(codeTopic(fault.code), fault.code, `Code ${fault.code}`), `: ${fault.name}`),
      ` \u2013 an error of the ${SIDES[side]}`),
    make("p", {}, upper(fault.wrong), " ", fault.then), make("p", { class: "clause" }, fault.clause));
}

function stateFact(row) {
  if (row.before === row.after) return ["stays ", word("state", row.after, row.after, "code")];
  return [word("state", row.before, row.before, "code"), " to ", word("state", row.after, row.after, "code")];
}

function pair(values) {
  return values && `called side ${values.called}, calling side ${values.calling}`;
}

// The names and values of what a packet says, without those that it does not have.
function factsOf(row) {
  const { more } = row;
  const settings = more.settings && more.settings.map((it) => [settingsText([it]), make("br")]);
  return [
    ["time", row.time === null ? null : clock(row.time)],
    ["state", stateFact(row)],
    ["P(S)", more.s], ["P(R)", more.r],
    ["bits", Object.keys(BITS).filter((bit) => more[bit]).map((bit) => BITS[bit]).join("; ") || null],
    ["octets of data", more.o],
    ["counted", more.c && plural(more.c, "segment")],
    ["not counted", more.not_counted && reasonName(more.not_counted)],
    ["called address", more.called], ["calling address", more.calling],
    ["facilities", [more.reverse && "reverse charging", more.fast && "fast select"].filter(Boolean).join(", ") || null],
    ["packet sizes", pair(more.sizes)], ["windows", pair(more.windows)],
    ["user data of the call", more.user_data && [make("code", {}, more.user_data), more.pad ? " (a PAD call)" : ""]],
    ["cause", more.cause && `${more.cause.value} (${more.cause.name})`],
    ["diagnostic", more.diagnostic !== undefined
      ? (more.diagnostic.name ? `${more.diagnostic.value} (${more.diagnostic.name})` : more.diagnostic) : null],
    ["PAD message", more.message && messageText(more.message)],
    ["settings", settings],
    ["what it began", more.begins && "a call"], ["what it brought up", more.up && "the call"],
    ["what it ended", more.ends && more.ends.map((it) => `call ${it.call}`).slice(0, 20).join(", ")],
    ["owed", more.owed && "the DCE owes an indication"],
  ].filter(([, value]) => value !== null && value !== undefined && value !== false && value !== 0 || value === 0);
}

function showDetail(row) {
  const arrow = row.side === 0 ? "DTE \u2192 DCE" : "DCE \u2192 DTE";
  place("detail").hidden = false;
  place("detail").replaceChildren(
    make("div", { class: "section-head" },
      make("h3", {}, `${upper(rowName(row))}: ${typeName(row.type)}, ${arrow}`),
      make("div", { class: "tools" },
        make("a", { class: "button", href: `#packets/${row.packet}` }, "in the list of all packets"),
        make("button", { type: "button", click: closeDetail }, "close"))),
    row.fault ? faultCard(row.fault, row.side) : "",
    make("dl", { class: "call-facts" },
      factsOf(row).map(([name, value]) => make("div", {}, make("dt", {}, word("term", name)),
      make("dd", {}, ...[value].flat(3).map((it) => (it instanceof Node ? it : String(it))))))),
    octetsOf(row));
}
