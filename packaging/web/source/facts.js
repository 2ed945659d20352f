// What is to be known of a result besides the three sets: that nobody voted, a tie, a Condorcet winner who loses. It is
// said as on the page of a report.

// The sentences on a result. `pairs` and `account` are null where they aren't known.
function factsOf({ split, voters, names }, pairs, account) {
  const said = [];
  if (voters === 0n) said.push('Nobody voted, so that no opinion stands behind this result.');
  const together = split.elected.length;
  if (together > 1) {
    said.push(`${together.toLocaleString('en')} are elected together: this rule doesn't choose among them.`);
  }
  const winner = pairs && pairs.winner && pairs.winner !== 'none' ? Number(pairs.winner) : null;
  if (winner !== null && !(together === 1 && split.elected[0] === winner)) {
    said.push([element('strong', {}, toldAlternative(winner, names)),
      ' wins against each other alternative in a duel (it is the Condorcet winner)',
      fateOf(winner, split, account), '.']);
  }
  return said;
}

function fateOf(winner, split, account) {
  if (split.elected.includes(winner)) return ', and isn\'t elected alone';
  if (split.deferred.includes(winner)) return ', and isn\'t elected but deferred';
  const round = account && roundOfLeaving(account, winner);
  return `, and isn't elected${round ? `: it goes in round ${round}` : ''}`;
}

// The round of the first loop in which an alternative is rejected, or 0.
function roundOfLeaving({ term, below }, one) {
  if (isRepeated(term)) return 1 + below.findIndex((part) => part.visit.split.rejected.includes(one));
  for (const part of below) {
    const found = roundOfLeaving(part, one);
    if (found) return found;
  }
  return 0;
}

function drawFacts(report, pairs, account) {
  return factsOf(report, pairs, account).map((said) => element('p', { class: 'fact' }, said));
}
