// The top of the page: who broke the protocol, what is doubtful, the hosts and findings of each side, and the sums.

// The most hosts of a side that its card names.
const MOST_NAMED = 3;
const broken = SIDES.map((_, side) => facts.codes.reduce((sum, code) => sum + code[3][side], 0));

// Whether packets may be missing: what is said of all packets is of those that were recorded.
const isPart = facts.gaps.length > 0 || facts.half_counts !== null;

// What a side is: guilty where both sides were recorded, unknown where it has no finding and half is missing, else clean.
function guiltOf(side) {
  if (facts.half_counts !== null) return broken[side] > facts.half_counts[side] ? "guilty" : "half";
  return broken[side] ? "guilty" : "clean";
}

function sideCard(side) {
  const most = Math.max(1, ...facts.codes.map((code) => Math.max(...code[3])));
  const rows = facts.codes.filter((code) => code[3][side]).map((code) => codeLine(code, side, most));
  const none = facts.half_counts === null ? "The trace has no packet of it." : "None of its packets was recorded.";
  const clean = isPart ? "No recorded packet of it breaks the protocol." : "None of its packets breaks the protocol.";
  const kept = facts.rows_of[side] ? clean : none;
  const half = facts.half_counts?.[side];
  const missing = half ? make("p", { class: "muted" }, `Of these, ${count(half)} ${half === 1 ? "is" : "are"} where only `,
    `the ${SIDES[side]} was recorded, and may come from packets of the ${SIDES[1 - side]} that were not.`) : "";
  return make("div", { class: `card side ${guiltOf(side)}` },
    make("div", { class: "side-head" },
      make("h2", {}, word("side", LETTERS[side], SIDES[side]), sideHosts(side)),
      make("span", { class: "big" }, count(broken[side] - facts.following[side])),
      make("span", { class: "muted" }, broken[side] - facts.following[side] === 1 ? "finding" : "findings", followers(side))),
    rows.length ? make("ul", { class: "codes" }, rows) : make("p", { class: "muted" }, kept), missing, foundHosts(side));
}

const mayFollow = (many) => many > 0 && make("small", {}, ` (${count(many)} may follow from others)`);

const followers = (side) => facts.following[side] > 0 && `, and ${count(facts.following[side])} that may follow`;

// The hosts of a side: their names where they are few.
function sideHosts(side) {
  const [many, hosts] = facts.side_hosts[side];
  if (!many) return null;
  return make("small", { class: "hosts" }, many > MOST_NAMED ? plural(many, "host") : hosts.map(([name]) => name).join(", "));
}

// The findings of each host, where a side has several hosts.
function foundHosts(side) {
  const found = facts.of_hosts[side];
  if (facts.side_hosts[side][0] < 2 || !found.length) return null;
  const line = ([host, many, following, connections, packet, key]) => make("li", {}, make("b", {}, host), " ",
    plural(many, "finding"), connections > 0 && ` on ${plural(connections, "connection")}`, mayFollow(following), " ",
    make("a", { href: `#${key}/${packet}` }, `${many > 1 ? "first at " : ""}${packetName(packet)}`));
  const rest = found.slice(MOST_NAMED * 2);
  return make("div", { class: "of-hosts" }, make("ul", {}, found.slice(0, MOST_NAMED * 2).map(line)),
    rest.length > 0 && make("details", {}, make("summary", {}, `${plural(rest.length, "more host")}`), make("ul", {}, rest.map(line))));
}

function codeLine([code, name, , counts, first, following], side, most) {
  const bar = make("span", { class: "bar" });
  bar.style.width = `${Math.max(3, 100 * counts[side] / most)}%`;
  const [packet, key] = first[side];
  return make("li", {},
    make("span", {}, word(codeTopic(code), code, `code ${code}`, "code"), " ", name, mayFollow(following[side])),
    make("span", { class: "bar-room" }, bar),
    make("b", {}, count(counts[side])),
    make("a", { href: `#${key}/${packet}` }, `${counts[side] > 1 ? "first at " : ""}${packetName(packet)}`));
}

function tile(value, name, more = "") {
  return make("div", { class: "tile" }, make("b", {}, value), make("span", {}, name), more && make("small", {}, more));
}

function tiles() {
  const { sums, peak } = facts;
  const lost = facts.not_counted.reduce((sum, it) => sum + it[1], 0);
  const unknown = peak[2] ? `; from frame ${peak[3]} on not known: the connections of ${plural(peak[2], "call")} ended without a clear` : "";
  const atPeak = (peak[1] ? `first at ${packetName(peak[1])}` : "no call was up") + unknown;
  const found = [
    tile(count(sums.packets), sums.packets === 1 ? "packet" : "packets", duration()),
    tile(count(sums.calls), sums.calls === 1 ? "call" : "calls"),
    tile(count(sums.octets), sums.octets === 1 ? "octet of data" : "octets of data", "accepted"),
    tile(count(sums.segments), sums.segments === 1 ? "segment" : "segments", "of 64 octets, as they are charged"),
    tile(count(peak[0]), peak[0] === 1 ? "call at once" : "calls at once", atPeak),
    tile(count(lost), lost === 1 ? "data packet not counted" : "data packets not counted",
      lost ? "" : isPart ? "all data that was recorded was accepted" : "all data was accepted"),
  ];
  if (lost) found.at(-1).append(make("ul", {}, facts.not_counted.map(notCounted)));
  return make("div", { class: "tiles" }, found);
}

function notCounted([reason, packets, octets]) {
  return make("li", {}, `${count(packets)} ${reasonName(reason)} (${plural(octets, "octet")})`);
}

function duration() {
  if (!facts.times.length) return "no times";
  return `in ${length(facts.times.at(-1)[1] - facts.times[0][1])}, from ${clock(facts.times[0][1])}`;
}

// What the reader has to know with the verdict: what the DCE did about errors of the DTE, and what may be wrong.
function doubts() {
  const found = facts.doubts.map(([sentence, packet, key]) =>
    make("li", {}, sentence, " ", make("a", { href: packet === null ? `#${key}` : `#${key}/${packet}` },
      packet === null ? "Which ones" : "Show it")));
  const doubt = ([sentence]) => make("li", {}, `The header may be wrong. ${sentence} `, make("a", { href: "#reading" }, "What to try"));
  found.push(...facts.warnings.map(doubt));
  return found.length ? make("ul", { class: "card doubts", "aria-label": "What to know with the verdict" }, found) : null;
}

function showOverview() {
  place("overview").append(
    make("h1", { class: `verdict ${facts.verdict[0]}` }, facts.verdict[1]),
    facts.program ? make("p", { class: "not-proved" }, facts.program) : "", doubts() ?? "",
    make("div", { class: "sides" }, sideCard(0), sideCard(1)),
    facts.sides ? make("p", { class: "taken" }, facts.sides, " ", facts.swapped && make("a", { href: "#reading" }, "The other way")) : "",
    tiles());
}
