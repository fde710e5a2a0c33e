// Where the address of the page leads, and the way back: each entry of the history keeps how far the page was scrolled.

const KEY = /^(interface|call-\d+|channel-\d+)(?:\/(\d+))?$/;
const LISTED = /^packets\/(\d+)$/;

// The ladder that is shown first: that of the first finding, else of the first call.
function firstKey() {
  const [found] = facts.marks;
  if (found) return [found[4], found[0]];
  if (calls.length) return [`call-${calls[0].call}`, null];
  const [key] = Object.keys(facts.ladders);
  return key ? [key, null] : null;
}

const partOfAddress = () => location.hash.slice(1);

function keepPlace() {
  history.replaceState({ top: window.scrollY }, "");
}

// Goes to a part of the page; a step between packets of one ladder replaces the one before in the history.
function goTo(part, isStep = false) {
  if (isStep) {
    history.replaceState(history.state, "", `#${part}`);
    showAddress();
  } else if (part === partOfAddress()) {
    showAddress();
  } else {
    keepPlace();
    location.hash = part;
  }
}

function showFirst() {
  const first = firstKey();
  if (first) openLadder(...first);
  return null;
}

// Shows a ladder, and a packet of it where one is named.
function showLadder(key, packet) {
  if (key !== shown.key || (packet && !place(`row-${packet}`))) openLadder(key, packet);
  shown.packet = packet;
  if (packet === null) place("detail").hidden = true;
  mark();
  return (packet && place(`row-${packet}`)) || place("ladder");
}

// Shows what the address names: a ladder, a packet, a line of the list or a part of the page; returns its element.
function showAddress() {
  hideHint();
  const part = partOfAddress();
  const [ladder, listed] = [KEY.exec(part), LISTED.exec(part)];
  if (part === "") return showFirst();
  if (listed) return showListed(Number(listed[1]));
  return ladder ? showLadder(ladder[1], ladder[2] ? Number(ladder[2]) : null) : place(part);
}

// Shows what the address names, after a click on a link.
function follow() {
  const seen = showAddress();
  if (!seen) return;
  // Scrolls a row to just above its details.
  const isRow = seen.matches(".row, tr");
  if (isRow) window.scrollBy({ top: seen.getBoundingClientRect().top - 0.3 * window.innerHeight });
  else seen.scrollIntoView({ block: "start" });
  if (seen.matches(".row")) makeReachable(seen);
  // Keys go on from here: a part of the page has the focus, and none of its elements yet.
  if (seen.matches("section")) seen.setAttribute("tabindex", -1);
  seen.focus({ preventScroll: true });
}

// Shows what the address names, after a step back or forth in the history: as far down as it was.
function goBack({ state }) {
  if (!state) return;
  showAddress();
  window.scrollTo({ top: state.top });
}

// Closes what is said of a packet; the focus goes back to the packet.
function closeDetail() {
  const row = shown.packet !== null && place(`row-${shown.packet}`);
  place("detail").hidden = true;
  history.replaceState(history.state, "", `#${shown.key}`);
  shown.packet = null;
  for (const element of document.querySelectorAll(".row.chosen")) element.classList.remove("chosen");
  if (row) focusRow(row);
}

function closeByKey(event) {
  if (event.key !== "Escape") return;
  if (!place("hint").hidden) hideHint();
  else if (place("find-note").hasChildNodes()) place("find-note").replaceChildren();
  else if (place("detail") && !place("detail").hidden) closeDetail();
}

function listenForSteps() {
  history.scrollRestoration = "manual";
  window.addEventListener("popstate", goBack);
  window.addEventListener("hashchange", () => history.state === null && follow());
  // A page that is read again is scrolled to where it was.
  window.addEventListener("pagehide", () => { history.scrollRestoration = "auto"; });
  document.addEventListener("click", (event) => event.target.closest?.("a[href^='#']") && keepPlace(), true);
  document.addEventListener("keydown", closeByKey);
}
