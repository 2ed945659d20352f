// The majority graph: an arrow from each alternative to those that it wins against, with the margin. It is a picture
// beside the table of pairs, and says the same as a text.

// more alternatives than these aren't drawn
const MOST_DRAWN_NODES = 8;

// where on an arrow its margin can stand
const MARGIN_PARTS = [0.5, 0.42, 0.58, 0.34, 0.66, 0.26, 0.74];

// the circle on which the alternatives stand, and the size of each
const GRAPH = { size: 400, radius: 150, node: 22 };

function nodePlaces(count) {
  const middle = GRAPH.size / 2;
  return Array.from({ length: count }, (_, i) => {
    const angle = (2 * Math.PI * i) / count - Math.PI / 2;
    return { x: middle + GRAPH.radius * Math.cos(angle), y: middle + GRAPH.radius * Math.sin(angle) };
  });
}

// Each pair once: who wins, who loses, and by how much; of a tie the margin is 0.
function duelsOf(rows) {
  const duels = [];
  for (let one = 0; one < rows.length; one++) {
    for (let other = one + 1; other < rows.length; other++) {
      const margin = rows[one][other] - rows[other][one];
      duels.push(margin < 0n ? { from: other, to: one, margin: -margin } : { from: one, to: other, margin });
    }
  }
  return duels;
}

// From the edge of one node to that of another one.
function drawArrow({ from, to, margin }, places) {
  const [a, b] = [places[from], places[to]];
  const length = Math.hypot(b.x - a.x, b.y - a.y);
  const [dx, dy] = [(b.x - a.x) / length, (b.y - a.y) / length];
  const gap = GRAPH.node + 8;
  const line = drawing('line', {
    x1: a.x + dx * gap, y1: a.y + dy * gap, x2: b.x - dx * (gap + 8), y2: b.y - dy * (gap + 8) });
  if (margin === 0n) return drawing('g', { class: 'tie' }, line);
  const [tipX, tipY] = [b.x - dx * gap, b.y - dy * gap];
  const corner = (side) => `${tipX - dx * 12 - side * dy * 6},${tipY - dy * 12 + side * dx * 6}`;
  return drawing('g', {}, line, drawing('polygon', { points: `${tipX},${tipY} ${corner(1)} ${corner(-1)}` }));
}

// Where on its arrow each margin stands: as far as can be from those that have their places, and from the alternatives.
function marginPlaces(duels, places) {
  const taken = [...places];
  return duels.map(({ from, to }) => {
    const [a, b] = [places[from], places[to]];
    const on = (part) => ({ x: a.x + (b.x - a.x) * part, y: a.y + (b.y - a.y) * part });
    const room = (place) => Math.min(...taken.map((it) => Math.hypot(it.x - place.x, it.y - place.y)));
    const best = MARGIN_PARTS.map(on).reduce((one, other) => (room(other) > room(one) + 1 ? other : one));
    taken.push(best);
    return best;
  });
}

function drawPlace({ x, y }, number, isWinner) {
  return drawing('g', isWinner ? { class: 'winner' } : {},
    isWinner ? drawing('circle', { cx: x, cy: y, r: GRAPH.node + 5 }) : [],
    drawing('circle', { cx: x, cy: y, r: GRAPH.node }), drawing('text', { x, y: y + 6 }, number));
}

// The graph in words, a sentence a pair.
function graphSentences({ rows, names }) {
  return duelsOf(rows).map(({ from, to, margin }) => {
    const [one, other] = [labelOf(from + 1, names), labelOf(to + 1, names)];
    return margin === 0n ? `${one} and ${other} tie` : `${one} wins against ${other} by ${margin.toLocaleString('en')}`;
  });
}

function drawGraph(pairs) {
  const { rows, winner } = pairs;
  if (rows.length < 2 || rows.length > MOST_DRAWN_NODES) return [];
  const places = nodePlaces(rows.length);
  const duels = duelsOf(rows);
  const told = graphSentences(pairs).join('; ');
  const margins = marginPlaces(duels, places);
  const picture = drawing('svg', { viewBox: `0 0 ${GRAPH.size} ${GRAPH.size}`, role: 'img', 'aria-label': `${told}.` },
    duels.map((duel) => drawArrow(duel, places)),
    places.map((place, i) => drawPlace(place, i + 1, winner === String(i + 1))),
    duels.map(({ margin }, i) => (
      drawing('text', { x: margins[i].x, y: margins[i].y + 5 }, margin.toLocaleString('en')))));
  const caption = ['An arrow leads from the winner of a duel to the loser, and has the margin.',
    duels.some(({ margin }) => margin === 0n) ? ' A dashed line is a tie.' : '',
    winner === 'none' ? '' : ` The Condorcet winner, ${winner}, has two rings.`];
  return element('figure', { class: 'graph' }, picture, element('figcaption', {}, caption));
}
