//! Profiles of strict complete orders, read from PrefLib's `.soc` files.

use crate::meaning::Set;
use std::cell::OnceCell;

const MOST_ALTERNATIVES: u64 = 1_024;
const MOST_LINES: usize = 1_000_000;
const MOST_BYTES: usize = 268_435_456;

/// The ballots, line by line: the orders one behind the other, and the weight of each.
pub struct Profile {
    count: usize,
    weights: Vec<u64>,
    orders: Vec<u16>,
    pairs: OnceCell<Vec<u64>>,
}

impl Profile {
    /// Reads a file whole, or tells the line that has its first fault.
    pub fn read(bytes: &[u8]) -> Result<Profile, usize> {
        let mut reader = Reader::default();
        let text = bytes.strip_prefix(b"\xEF\xBB\xBF").unwrap_or(bytes);
        let mut number = 0;
        for line in text.split(|&byte| byte == b'\n') {
            number += 1;
            reader.line(trimmed(line)).ok_or(number)?;
        }
        if bytes.len() > MOST_BYTES {
            return Err(number);
        }
        reader.end().ok_or(number)
    }

    pub fn alternatives(&self) -> Set {
        (1..=self.count as u16).collect()
    }

    /// Each line's weight and order.
    pub fn ballots(&self) -> impl Iterator<Item = (u64, &[u16])> {
        let weights = self.weights.iter().copied();
        weights.zip(self.orders.chunks_exact(self.count))
    }

    /// The weight of the ballots that put `x` before `y`.
    pub fn prefer(&self, x: u16, y: u16) -> u64 {
        let pairs = self.pairs.get_or_init(|| self.counted_pairs());
        pairs[usize::from(x - 1) * self.count + usize::from(y - 1)]
    }

    fn counted_pairs(&self) -> Vec<u64> {
        let mut pairs = vec![0; self.count * self.count];
        for (weight, order) in self.ballots() {
            for (place, x) in order.iter().enumerate() {
                let row = usize::from(x - 1) * self.count;
                for y in &order[place + 1..] {
                    pairs[row + usize::from(y - 1)] += weight;
                }
            }
        }
        pairs
    }
}

/// What the lines so far have said.
#[derive(Default)]
struct Reader {
    count: Option<u64>,
    voters: Option<u64>,
    unique_orders: Option<u64>,
    weights: Vec<u64>,
    orders: Vec<u16>,
    total: u64,
    /// The last line of votes that each alternative was seen in.
    seen_in: Vec<usize>,
}

impl Reader {
    fn line(&mut self, line: &[u8]) -> Option<()> {
        match line {
            [] => Some(()),
            [b'#', rest @ ..] => self.metadata(rest),
            votes => self.votes(votes),
        }
    }

    fn metadata(&mut self, text: &[u8]) -> Option<()> {
        let Some((key, value)) = cut(text, b':') else {
            return Some(());
        };
        let value = trimmed(value);
        match trimmed(key) {
            b"DATA TYPE" => value.eq_ignore_ascii_case(b"soc").then_some(()),
            b"NUMBER ALTERNATIVES" => {
                set_once(&mut self.count, number(value)?)?;
                self.count
                    .filter(|count| (1..=MOST_ALTERNATIVES).contains(count))
                    .map(|_| ())
            }
            b"NUMBER VOTERS" => set_once(&mut self.voters, number(value)?),
            b"NUMBER UNIQUE ORDERS" => set_once(&mut self.unique_orders, number(value)?),
            _ => Some(()),
        }
    }

    fn votes(&mut self, line: &[u8]) -> Option<()> {
        let count = self.count? as usize;
        let (weight, order) = cut(line, b':')?;
        let weight = number(trimmed(weight))?;
        self.seen_in.resize(count, 0);
        let line_of_votes = self.weights.len() + 1;
        let begin = self.orders.len();
        for entry in order.split(|&byte| byte == b',') {
            let x = number(trimmed(entry))?;
            let seen_in = self.seen_in.get_mut(x.checked_sub(1)? as usize)?;
            if *seen_in == line_of_votes {
                return None;
            }
            *seen_in = line_of_votes;
            self.orders.push(x as u16);
        }
        if self.orders.len() - begin < count || line_of_votes > MOST_LINES {
            return None;
        }
        self.total = self.total.checked_add(weight)?;
        self.weights.push(weight);
        Some(())
    }

    fn end(self) -> Option<Profile> {
        let agree = |said: Option<u64>, found: u64| said.is_none_or(|said| said == found);
        let lines = self.weights.len() as u64;
        if !agree(self.voters, self.total) || !agree(self.unique_orders, lines) {
            return None;
        }
        let profile = Profile {
            count: self.count? as usize,
            weights: self.weights,
            orders: self.orders,
            pairs: OnceCell::new(),
        };
        if cfg!(pairs_while_reading) {
            profile.prefer(1, 1);
        }
        Some(profile)
    }
}

/// A key may be repeated with the value that it has.
fn set_once(kept: &mut Option<u64>, value: u64) -> Option<()> {
    (*kept.get_or_insert(value) == value).then_some(())
}

/// What stands before and behind the first such byte.
fn cut(text: &[u8], at: u8) -> Option<(&[u8], &[u8])> {
    let place = text.iter().position(|&byte| byte == at)?;
    Some((&text[..place], &text[place + 1..]))
}

fn trimmed(mut text: &[u8]) -> &[u8] {
    while let [b' ' | b'\t' | b'\r', rest @ ..] = text {
        text = rest;
    }
    while let [rest @ .., b' ' | b'\t' | b'\r'] = text {
        text = rest;
    }
    text
}

fn number(digits: &[u8]) -> Option<u64> {
    if digits.is_empty() {
        return None;
    }
    digits.iter().try_fold(0u64, |value, digit| {
        let digit = digit.is_ascii_digit().then(|| u64::from(digit - b'0'))?;
        value.checked_mul(10)?.checked_add(digit)
    })
}
