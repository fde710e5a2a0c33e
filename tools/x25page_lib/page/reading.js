// What the facts rest on: the header of the trace, what may be wrong with it, and what the reading of the capture said.

function headerPart() {
  const chips = facts.numbers.map(([name, value, source]) => make("span", { class: source ? "chip estimated" : "chip" },
    word("header", name), value && ` ${value}`, source && make("small", {}, "estimated: ", make("br"), source)));
  const isEstimated = facts.numbers.some(([name, , source]) => source && ["WIN", "SIZE"].includes(name));
  return make("details", { class: "card header", open: facts.warnings.length > 0 },
    make("summary", {}, "The header", make("code", {}, facts.header)),
    make("p", { class: "chips" }, chips.length ? chips : make("code", {}, facts.header)),
    isEstimated && make("p", { class: "muted" },
      "Each estimated number says on what it rests. Where WIN or SIZE does not rest on answers of the DCE, ",
      "data that broke a smaller one is not found. Give --win and --size where you know them."));
}

function howToTryAll() {
  return make("div", {}, make("p", {}, "This command tries other headers, and prints the one that fits best first:"),
    make("pre", {}, facts.trial));
}

// The commands that make the page again under other values of a number of the header.
function howToTry([, name, values]) {
  if (!values.length) return null;
  const option = { WIN: "--win", SIZE: "--size" }[name];
  const now = facts.numbers.find((it) => it[0] === name);
  const isCapture = typeof facts.again !== "string";
  const commands = values.map((value) => (isCapture
    ? `x25page ${option} ${value} -o other.html ${facts.again[name]}`
    : `sed 's/${name} ${now[1]} /${name} ${value} /' ${facts.again} | x25page -o other.html -`));
  return make("div", {}, make("p", {}, `Try another ${name}, and compare what is found:`),
    commands.map((line) => make("pre", {}, line)));
}

function alarm() {
  if (!facts.warnings.length) return null;
  const tried = new Set();
  const ways = facts.warnings.filter(([, name]) => !tried.has(name) && tried.add(name)).map(howToTry);
  return make("div", { class: "card alarm", role: "note" },
    make("h2", {}, "The header may be wrong"), facts.warnings.map(([sentence]) => make("p", {}, sentence)),
    howToTryAll(), ways);
}

// Whether what was read is in doubt: packets are missing, or one side alone was recorded.
const isReadingInDoubt = !facts.whole || facts.half_counts !== null;

function messages() {
  if (!facts.messages.length) return null;
  return make("details", { class: "card", open: isReadingInDoubt },
    make("summary", {}, "What the reading of the capture said", make("small", {}, plural(facts.messages.length, "line"))),
    make("ul", { class: "plain" }, facts.messages.map((line) => make("li", {}, line))));
}

// Which ends are taken for the DTE and the DCE, and the command for the other way.
function sidesPart() {
  if (!facts.sides) return null;
  return make("div", { class: "card" }, make("p", {}, facts.sides),
    facts.swapped && [make("p", { class: "muted" }, "This command takes them the other way round:"),
      make("pre", {}, `${facts.swapped} -o other.html`)]);
}

function showReading() {
  place("reading").append(make("h2", {}, "On what this rests"), alarm() ?? "", headerPart(), messages() ?? "", sidesPart() ?? "");
}
