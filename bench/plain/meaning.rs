//! What a term does with a set of alternatives: which it elects, rejects and defers.

use crate::profile::Profile;
use crate::rule::{Bound, Score, Term};
use std::cmp::Ordering;
use std::collections::BTreeSet;

pub type Set = BTreeSet<u16>;

#[derive(Default)]
pub struct Split {
    pub elected: Set,
    pub rejected: Set,
    pub deferred: Set,
}

impl Split {
    fn electing(set: &Set, elected: Set) -> Split {
        Split {
            rejected: set - &elected,
            elected,
            ..Split::default()
        }
    }

    fn deferring(set: &Set, deferred: Set) -> Split {
        Split {
            rejected: set - &deferred,
            deferred,
            ..Split::default()
        }
    }

    /// What comes of a set whose deferred part was split further.
    fn then(self, further: Split) -> Split {
        Split {
            elected: &self.elected | &further.elected,
            rejected: &self.rejected | &further.rejected,
            deferred: further.deferred,
        }
    }

    /// One elected is elected, one that both reject is rejected, and the others are deferred.
    fn beside(self, other: Split) -> Split {
        let elected = &self.elected | &other.elected;
        let deferred = &(&self.deferred | &other.deferred) - &elected;
        Split {
            rejected: &self.rejected & &other.rejected,
            elected,
            deferred,
        }
    }
}

pub fn split(term: &Term, profile: &Profile, set: &Set) -> Split {
    match term {
        Term::Elect => Split::electing(set, set.clone()),
        Term::Defer => Split::deferring(set, set.clone()),
        Term::Plurality => {
            let first = scores(Score::Plurality, profile, set);
            let greatest = first.iter().map(|&(_, score)| score).max();
            let winners = first.iter().filter(|&&(_, score)| Some(score) == greatest);
            Split::electing(set, winners.map(|&(x, _)| x).collect())
        }
        Term::Pass(most, order) => Split::deferring(set, front(set, *most, order)),
        Term::Drop(most, order) => Split::deferring(set, set - &front(set, *most, order)),
        Term::Eliminate(bound, score) => {
            let out = eliminated(*bound, &scores(*score, profile, set));
            Split::deferring(set, if out == *set { out } else { set - &out })
        }
        Term::Revise(part) => Split::deferring(set, split(part, profile, set).elected),
        Term::Sequence(first, second) => {
            let decided = split(first, profile, set);
            let further = split(second, profile, &decided.deferred);
            decided.then(further)
        }
        Term::Parallel(one, other) => split(one, profile, set).beside(split(other, profile, set)),
        Term::Loop(wanted, part) => repeated(*wanted, part, profile, set),
    }
}

fn repeated(wanted: usize, part: &Term, profile: &Profile, set: &Set) -> Split {
    let mut all = Split::deferring(set, set.clone());
    while all.deferred.len() != wanted {
        let further = split(part, profile, &all.deferred);
        if further.deferred == all.deferred {
            break;
        }
        all = all.then(further);
    }
    all
}

/// The first members of the set in a fixed order: those that it lists, then the others ascending.
fn front(set: &Set, most: usize, order: &[u16]) -> Set {
    let listed = order.iter().filter(|x| set.contains(x));
    let others = set.iter().filter(|x| !order.contains(x));
    listed.chain(others).take(most).copied().collect()
}

fn eliminated(bound: Bound, scores: &[(u16, i128)]) -> Set {
    let values = || scores.iter().map(|&(_, score)| score);
    let (least, greatest) = (values().min(), values().max());
    let (sum, size) = (values().sum::<i128>(), scores.len() as i128);
    let is_out = |score: i128| match bound {
        Bound::BelowGreatest => Some(score) < greatest,
        Bound::Least => Some(score) == least,
        Bound::BelowMean => score * size < sum,
        Bound::UpToMean => score * size <= sum,
    };
    scores
        .iter()
        .filter(|&&(_, score)| is_out(score))
        .map(|&(x, _)| x)
        .collect()
}

/// Each member's score on the ballots restricted to the set.
fn scores(score: Score, profile: &Profile, set: &Set) -> Vec<(u16, i128)> {
    if let Score::Plurality = score {
        return first_places(profile, set);
    }
    let of = |x: u16| {
        let against = set.iter().filter(|&&y| y != x);
        let mut duels = against.map(|&y| (profile.prefer(x, y), profile.prefer(y, x)));
        match score {
            Score::Minimax => duels.map(|(for_x, _)| i128::from(for_x)).min().unwrap_or(0),
            Score::Condorcet => i128::from(duels.all(|(for_x, for_y)| for_x > for_y)),
            Score::Copeland => duels.map(|(for_x, for_y)| sign(for_x.cmp(&for_y))).sum(),
            Score::Plurality | Score::Borda => duels.map(|(for_x, _)| i128::from(for_x)).sum(),
        }
    };
    set.iter().map(|&x| (x, of(x))).collect()
}

fn sign(order: Ordering) -> i128 {
    order as i128
}

fn first_places(profile: &Profile, set: &Set) -> Vec<(u16, i128)> {
    let greatest = set.last().map_or(0, |&x| usize::from(x));
    let mut is_member = vec![false; profile.alternatives().len() + 1];
    set.iter().for_each(|&x| is_member[usize::from(x)] = true);
    let mut places = vec![0i128; greatest + 1];
    for (weight, order) in profile.ballots() {
        if let Some(&first) = order.iter().find(|&&x| is_member[usize::from(x)]) {
            places[usize::from(first)] += i128::from(weight);
        }
    }
    set.iter().map(|&x| (x, places[usize::from(x)])).collect()
}
