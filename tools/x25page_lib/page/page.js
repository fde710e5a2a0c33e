// The start of the page: its parts, where its address leads, and its colours.

const PARTS = { overview: "Overview", findings: "Findings", strip: "Channels", ladder: "Ladder", calls: "Calls",
  reading: "Reading", waits: "Waits", use: "Use", packets: "Packets", accounts: "Who pays",
  settings: "PADs", words: "Words", about: "About" };
const THEMES = { auto: "Auto", light: "Light", dark: "Dark" };

function setTheme(name) {
  document.documentElement.dataset.theme = name;
  try {
    localStorage.setItem("x25page-theme", name);
  } catch {
    // A browser may keep nothing for pages from the disk.
  }
  for (const button of place("theme").children) button.setAttribute("aria-pressed", button.dataset.name === name);
}

function storedTheme() {
  try {
    const name = localStorage.getItem("x25page-theme");
    return Object.hasOwn(THEMES, name) ? name : "auto";
  } catch {
    return "auto";
  }
}

function showTop() {
  document.title = `${facts.name}: x25page`;
  place("name").textContent = facts.name;
  place("foot").append(facts.program);
  place("theme").append(...Object.entries(THEMES).map(([name, title]) => make("button",
    { type: "button", "data-name": name, click: () => setTheme(name) }, title)));
  setTheme(storedTheme());
}

function showNav() {
  const there = Object.keys(PARTS).filter((id) => place(id).childElementCount);
  place("nav").append(...there.map((id) => make("a", { href: `#${id}` }, PARTS[id])));
}

function leftOutTexts() {
  const { left_out: left } = facts;
  const said = [];
  const say = (many, noun, rest) => many && said.push(`${plural(many, noun)} ${many === 1 ? "is" : "are"} ${rest}`);
  if (left.level > 0) said.push("The trace is long: of the octets of each packet only the first ones are here.");
  if (left.level > 1) said.push("Packets that show nothing special are left out, and their sums are shown.");
  say(left.ladders, "ladder", "left out, those without findings first.");
  say(left.restarts, "restart", "not drawn over the channels.");
  const tables = { calls: "call", unjudged: "call that was not judged", marks: "finding", accounts: "account",
    settings: "setting" };
  for (const [name, noun] of Object.entries(tables)) {
    say(left[name], noun, "left out of the tables; the sums at the top count them.");
  }
  return said;
}

function showAbout() {
  const said = leftOutTexts();
  place("about").append(make("h2", {}, "About this page"),
    make("div", { class: "card" },
      make("p", {}, "x25page made it of what x25scan says of the trace: an observer reads the packets ",
        "in their order and judges each by the state tables of X.25."),
      said.length ? make("ul", {}, said.map((line) => make("li", {}, line)))
        : make("p", {}, "It has every packet of the trace."),
      make("p", {}, "Header: ", make("code", {}, facts.header)),
      facts.comments.length ? make("details", {}, make("summary", {}, "Comments before the header"),
        make("ul", { class: "plain" }, facts.comments.map((line) => make("li", {}, line)))) : ""));
}

// Draws anew what is as wide as the page.
function drawAll() {
  if (place("lanes")) drawStrip();
  drawLadder();
  drawCharts();
  findingTable.table?.draw();
}

// A page that is printed is drawn for the width of the paper.
function listenForSizes() {
  let width = window.innerWidth;
  const print = (wide) => {
    printing.width = wide;
    drawAll();
  };
  window.addEventListener("resize", () => {
    if (window.innerWidth === width || printing.width) return;
    width = window.innerWidth;
    drawAll();
  });
  window.addEventListener("beforeprint", () => print(PAPER));
  window.addEventListener("afterprint", () => print(null));
}

function start() {
  showTop();
  showFind();
  showOverview();
  showFindings();
  showStrip();
  showCalls();
  showUnjudged();
  showReading();
  showWaits();
  showUse();
  showPackets();
  showAccounts();
  showSettings();
  showWords();
  showAbout();
  listenForWords();
  listenForSteps();
  listenForSizes();
  showFirst();
  showNav();
  if (partOfAddress()) follow();
  document.documentElement.dataset.ready = "yes";
}

start();
