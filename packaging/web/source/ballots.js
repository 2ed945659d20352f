// The ballots as data, for the table in which they are put in order. The table is there for small profiles alone.

const MOST_BALLOTS = 40;
const MOST_ALTERNATIVES = 16;

// The ballots of a text, or null where it isn't one that the table can show. What is wrong is told by the program.
function readBallots(text) {
  const ballots = { alternatives: 0, names: {}, lines: [], rest: [] };
  for (const line of text.split('\n').map((it) => it.trim()).filter(Boolean)) {
    if (!(line.startsWith('#') ? readMetadata(line, ballots) : readVotes(line, ballots))) return null;
  }
  const fits = ballots.alternatives >= 1 && ballots.alternatives <= MOST_ALTERNATIVES;
  return fits && ballots.lines.length <= MOST_BALLOTS ? ballots : null;
}

function readMetadata(line, ballots) {
  const found = /^#\s*([^:]*?)\s*:\s*(.*)$/.exec(line);
  const [key, value] = found ? [found[1], found[2]] : ['', ''];
  const name = /^ALTERNATIVE NAME (\d+)$/.exec(key);
  if (key === 'NUMBER ALTERNATIVES') ballots.alternatives = Number(value);
  else if (name && value) ballots.names[Number(name[1])] = value;
  else if (!name && key !== 'NUMBER VOTERS' && key !== 'NUMBER UNIQUE ORDERS') ballots.rest.push(line);
  return true;
}

function readVotes(line, ballots) {
  const found = /^(\d+)\s*:\s*([\d,\s]+)$/.exec(line);
  const order = found ? found[2].split(',').map((part) => Number(part.trim())) : [];
  const whole = order.length === ballots.alternatives && new Set(order).size === order.length
    && order.every((it) => it >= 1 && it <= ballots.alternatives);
  if (!found || !whole) return false;
  ballots.lines.push({ count: found[1].replace(/^0+(?=\d)/, ''), order });
  return true;
}

// The text of ballots. Numbers that would have to be kept right are left out, and the rest of the metadata stays.
function ballotsText({ alternatives, names, lines, rest }) {
  const named = Object.entries(names).filter(([number, name]) => name && Number(number) <= alternatives)
    .map(([number, name]) => `# ALTERNATIVE NAME ${number}: ${name}`);
  const votes = lines.map(({ count, order }) => `${count}: ${order.join(',')}`);
  return [...rest, `# NUMBER ALTERNATIVES: ${alternatives}`, ...named, ...votes, ''].join('\n');
}

function withOneMore({ alternatives, names, lines, rest }) {
  const more = lines.map(({ count, order }) => ({ count, order: [...order, alternatives + 1] }));
  return { alternatives: alternatives + 1, names, lines: more, rest };
}

function withoutLast({ alternatives, names, lines, rest }) {
  const fewer = lines.map(({ count, order }) => ({ count, order: order.filter((it) => it !== alternatives) }));
  return { alternatives: alternatives - 1, names, lines: fewer, rest };
}
