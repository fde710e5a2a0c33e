// The ends of the interface: the host of each side, of the whole line or of an XOT connection, where the reading knows it.

const circuits = new Map();
for (const circuit of facts.circuits) {
  if (!circuits.has(circuit[1])) circuits.set(circuit[1], []);
  circuits.get(circuit[1]).push(circuit);
}

// The circuit that a packet of a channel is in, or nothing where that is not known.
function circuitOf(channel, packet) {
  const all = circuits.get(channel);
  if (!all || (facts.circuits_to !== null && packet > facts.circuits_to)) return null;
  let [low, high] = [0, all.length];
  while (low < high) {
    const middle = (low + high) >> 1;
    if (all[middle][0] <= packet) low = middle + 1;
    else high = middle;
  }
  return low ? all[low - 1] : null;
}

const connectionOf = (channel, packet) => circuitOf(channel, packet)?.[3] ?? null;

// The host of a side that a packet of a channel is of, or nothing.
function hostOf(side, channel, packet) {
  const at = circuits.has(channel) ? circuitOf(channel, packet)?.[4 + side] : facts.line_hosts[side];
  return facts.hosts[at] ?? null;
}

const hasHosts = facts.hosts.length > 0;
const hasConnections = facts.circuits.some((it) => it[3] !== null);

// A side, and below it its host.
function sideWithHost(side, channel, packet) {
  const host = hostOf(side, channel, packet);
  return [word("side", LETTERS[side], SIDES[side]), host !== null && make("small", { class: "host" }, host)];
}

// The connection of a packet, in small letters.
function smallConnection(channel, packet) {
  const connection = connectionOf(channel, packet);
  return connection !== null && make("small", {}, `connection ${count(connection)}`);
}
