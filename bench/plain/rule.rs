//! Voting rules, read from rule files: modules, and their compositions.

use std::collections::HashMap;

#[derive(Clone)]
pub enum Term {
    Elect,
    Defer,
    Plurality,
    Pass(usize, Vec<u16>),
    Drop(usize, Vec<u16>),
    Eliminate(Bound, Score),
    Revise(Box<Term>),
    Sequence(Box<Term>, Box<Term>),
    Parallel(Box<Term>, Box<Term>),
    Loop(usize, Box<Term>),
}

/// Which scores an eliminator rejects.
#[derive(Clone, Copy)]
pub enum Bound {
    BelowGreatest,
    Least,
    BelowMean,
    UpToMean,
}

#[derive(Clone, Copy)]
pub enum Score {
    Plurality,
    Borda,
    Copeland,
    Minimax,
    Condorcet,
}

/// The term that the last definition of the file names.
pub fn read(text: &str) -> Option<Term> {
    let mut tokens = Tokens { rest: text };
    let mut named = HashMap::new();
    let mut last = None;
    while let Some(name) = tokens.next() {
        tokens.expect("=")?;
        let term = tokens.term(&named)?;
        tokens.expect(";")?;
        named.insert(name.to_string(), term.clone());
        last = Some(term);
    }
    last
}

struct Tokens<'a> {
    rest: &'a str,
}

impl<'a> Iterator for Tokens<'a> {
    type Item = &'a str;

    /// The next word, number or sign; what follows a `#` on its line is skipped.
    fn next(&mut self) -> Option<&'a str> {
        self.rest = self.rest.trim_start();
        while let Some(comment) = self.rest.strip_prefix('#') {
            self.rest = comment
                .split_once('\n')
                .map_or("", |(_, rest)| rest)
                .trim_start();
        }
        let in_word = |c: char| c.is_ascii_alphanumeric() || c == '_' || c == '-';
        let length = self.rest.find(|c| !in_word(c)).unwrap_or(self.rest.len());
        let first = self.rest.chars().next()?;
        let (token, rest) = self.rest.split_at(length.max(first.len_utf8()));
        self.rest = rest;
        Some(token)
    }
}

impl Tokens<'_> {
    fn expect(&mut self, wanted: &str) -> Option<()> {
        self.next().filter(|&token| token == wanted).map(|_| ())
    }

    fn number<T: std::str::FromStr>(&mut self) -> Option<T> {
        self.next()?.parse().ok()
    }

    fn score(&mut self) -> Option<Score> {
        Some(match self.next()? {
            "plurality" => Score::Plurality,
            "borda" => Score::Borda,
            "copeland" => Score::Copeland,
            "minimax" => Score::Minimax,
            "condorcet" => Score::Condorcet,
            _ => return None,
        })
    }

    /// What ends a module's number, and the fixed order before it, if there is one.
    fn fixed_order(&mut self) -> Option<Vec<u16>> {
        let mut order = Vec::new();
        match self.next()? {
            ")" => return Some(order),
            "," => self.expect("[")?,
            _ => return None,
        }
        loop {
            match self.next()? {
                "]" => break,
                "," => {}
                member => order.push(member.parse().ok()?),
            }
        }
        self.expect(")")?;
        Some(order)
    }

    fn part(&mut self, named: &HashMap<String, Term>, end: &str) -> Option<Box<Term>> {
        let term = self.term(named)?;
        self.expect(end)?;
        Some(Box::new(term))
    }

    fn eliminator(&mut self, bound: Bound) -> Option<Term> {
        self.expect("(")?;
        let score = self.score()?;
        self.expect(")")?;
        Some(Term::Eliminate(bound, score))
    }

    fn term(&mut self, named: &HashMap<String, Term>) -> Option<Term> {
        let word = self.next()?;
        if matches!(word, "pass" | "drop" | "rev" | "seq" | "par" | "loop") {
            self.expect("(")?;
        }
        Some(match word {
            "elect" => Term::Elect,
            "defer" => Term::Defer,
            "plurality" => Term::Plurality,
            "pass" => Term::Pass(self.number()?, self.fixed_order()?),
            "drop" => Term::Drop(self.number()?, self.fixed_order()?),
            "max" => self.eliminator(Bound::BelowGreatest)?,
            "min" => self.eliminator(Bound::Least)?,
            "below" => self.eliminator(Bound::BelowMean)?,
            "upto" => self.eliminator(Bound::UpToMean)?,
            "rev" => Term::Revise(self.part(named, ")")?),
            "seq" => Term::Sequence(self.part(named, ",")?, self.part(named, ")")?),
            "par" => Term::Parallel(self.part(named, ",")?, self.part(named, ")")?),
            "loop" => {
                let wanted = self.number()?;
                self.expect(",")?;
                Term::Loop(wanted, self.part(named, ")")?)
            }
            name => named.get(name)?.clone(),
        })
    }
}
