// The find box at the top: the number of a packet or of its frame leads to it, and "call 4" or "channel 3" to a ladder.

const FOUND_BY = NUMBERED_BY.toLowerCase();
const SOUGHT = /^\s*(?:(packet|frame|call|channel)\s+)?([\d,]+)\s*$/i;

// Words on a packet that is not here: where the page leaves packets out, also the command that looks for it.
function notFound(name, rest, wanted) {
  const isWhole = !Object.values(facts.left_out).some(Boolean);
  if (isWhole) return { words: rest };
  return { words: `${name} is left out to keep the page small. This command shows it, if it is there: `,
    line: command(`--annotate | grep -A 3 '${wanted}'`) };
}

function foundPacket(number) {
  const found = packetOf(number);
  if (found) return { part: `${found.key}/${number}` };
  const [first, last] = facts.rows;
  if (!first || number < first || number > last) {
    return { words: first ? `The packets are ${count(first)} to ${count(last)}.` : "The trace has no packets." };
  }
  return notFound(`Packet ${count(number)}`, `The trace has no packet ${count(number)}.`, `^${number} `);
}

function foundFrame(number) {
  const found = packetOfFrame(number);
  if (found) return { part: `${found.key}/${found.number}` };
  if (!hasFrames) return { words: "The trace says no frames." };
  return notFound(`Frame ${count(number)}`, `No packet of the trace is of frame ${count(number)}.`, `^#@ [^ ]* ${number}$`);
}

function foundLadder(key) {
  const isThere = Object.hasOwn(facts.ladders, key) || callOfKey(key);
  return isThere ? { part: key } : { words: `The page has no ${key.replace("-", " ")}.` };
}

// The calls of a channel, where the channel itself has no ladder.
function foundChannel(number) {
  if (Object.hasOwn(facts.ladders, `channel-${number}`)) return { part: `channel-${number}` };
  const call = calls.find((it) => it.channel === number);
  return call ? { part: `call-${call.call}` } : { words: `No packet is on channel ${number}.` };
}

const FOUND = { packet: foundPacket, frame: foundFrame, call: (number) => foundLadder(`call-${number}`),
  channel: foundChannel };

// Where the words of the find box lead, or why they lead nowhere. A number alone is that of a frame, where packets have frames.
function found(text) {
  const match = SOUGHT.exec(text);
  if (!match) return { words: `Give the number of a ${FOUND_BY}, or call 4, or channel 3.` };
  const what = (match[1] || FOUND_BY).toLowerCase();
  return FOUND[what](Number(match[2].replaceAll(",", "")));
}

function find() {
  const { part, words, line } = found(place("find-text").value);
  place("find-note").replaceChildren(...[words, line && make("code", {}, line)].filter(Boolean));
  if (part) goTo(part);
}

function showFind() {
  const text = make("input", { type: "search", id: "find-text", size: 12, placeholder: `${FOUND_BY} number`,
    "aria-label": `Find a ${FOUND_BY} by its number, or call 4, or channel 3`, "aria-describedby": "find-note",
    keydown: (event) => event.key === "Enter" && find(), input: () => place("find-note").replaceChildren() });
  place("find").append(text, make("button", { type: "button", click: find }, "Find"));
}
