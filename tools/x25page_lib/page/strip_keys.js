// The strip by keys: arrows go from bar to bar and from lane to lane, and Enter opens the ladder of what they reached.

const reach = { lane: null, at: 0, found: new Map() };

// What a lane has, in the order of its packets: calls, findings, and on the lane of the interface restarts.
function itemsOf(name) {
  if (!reach.found.has(name)) {
    const channel = name === "interface" ? null : Number(name);
    const items = [
      ...calls.filter((call) => call.channel === channel).map((call) => ({ call, packet: call.opened })),
      ...facts.marks.filter((mark) => mark[2] === channel).map((mark) => ({ mark, packet: mark[0] })),
      ...(channel === null ? facts.restarts.map(([packet, side]) => ({ restart: side, packet })) : []),
    ];
    reach.found.set(name, items.sort((a, b) => a.packet - b.packet));
  }
  return reach.found.get(name);
}

const reached = () => itemsOf(reach.lane)[reach.at];
const fullLanes = () => [...strip.lanes.keys()].filter((name) => itemsOf(name).length);

// The item of a lane that is nearest to a packet.
function nearest(name, packet) {
  const items = itemsOf(name);
  const far = (at) => Math.abs(items[at].packet - packet);
  return items.reduce((best, _, at) => (far(at) < far(best) ? at : best), 0);
}

function reachFirst() {
  if (strip.drag !== null) return;
  const [first] = fullLanes();
  if (first === undefined) return;
  if (!strip.lanes.has(reach.lane) || !itemsOf(reach.lane).length) [reach.lane, reach.at] = [first, 0];
  showReached();
}

function leaveBars() {
  place("lanes").querySelector(".reached")?.setAttribute("width", 0);
  place("under").textContent = HELP;
}

// Shows where the keys are, and says what is there.
function showReached() {
  const item = reached();
  const [begin, end] = [value(item.packet), value(item.call ? lastPacket(item.call) : item.packet)];
  if (end < strip.from || begin > strip.to) {
    const half = (strip.to - strip.from) / 2;
    zoomTo(begin - half, begin + half);
  }
  const x = Math.max(strip.labels, across(item.packet) - (item.call ? 0 : 6)) - 2;
  const right = item.call ? Math.min(strip.width - 4, across(lastPacket(item.call))) + 2 : x + 16;
  const y = laneOf(reach.lane) * strip.lane;
  const box = { x, y: y + 1, width: Math.max(10, right - x), height: Math.max(4, strip.lane - 2) };
  const shape = place("lanes").querySelector(".reached");
  for (const [name, number] of Object.entries(box)) shape.setAttribute(name, number);
  const room = place("lanes");
  if (y < room.scrollTop || y + strip.lane > room.scrollTop + room.clientHeight) room.scrollTop = y - strip.lane;
  place("under").textContent = underText(item);
}

function stepBar(by) {
  reach.at = Math.min(itemsOf(reach.lane).length - 1, Math.max(0, reach.at + by));
}

function stepLane(by) {
  const names = fullLanes();
  const next = names[Math.min(names.length - 1, Math.max(0, names.indexOf(reach.lane) + by))];
  [reach.at, reach.lane] = [nearest(next, reached().packet), next];
}

const BAR_STEPS = {
  ArrowRight: () => stepBar(1), ArrowLeft: () => stepBar(-1), ArrowDown: () => stepLane(1), ArrowUp: () => stepLane(-1),
  Home: () => stepBar(-Infinity), End: () => stepBar(Infinity), "+": () => zoomBy(0.5), "-": () => zoomBy(2),
};

function stripKey(event) {
  if (reach.lane === null) reachFirst();
  if (reach.lane === null || event.altKey || event.ctrlKey || event.metaKey) return;
  if (event.key === "Enter" || event.key === " ") {
    event.preventDefault();
    const item = reached();
    if (item.restart !== undefined) goTo(`interface/${item.packet}`);
    else go(item);
  } else if (Object.hasOwn(BAR_STEPS, event.key)) {
    event.preventDefault();
    BAR_STEPS[event.key]();
    showReached();
  }
}
