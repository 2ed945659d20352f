//! An ordinary program for `count RULE SOC`: what one would write in plain Rust, with no proof, in place of `virage`.
//! It is the yardstick of `bench/read.sh`, and a second opinion on large profiles. It judges a profile as strictly as
//! `virage` does, but names a fault by its line alone, and of rule files it reads what it understands.
//!
//!     rustc -O --edition 2021 main.rs -o plain                            pairs are counted when a rule asks for them
//!     rustc -O --edition 2021 --cfg pairs_while_reading main.rs -o plain  pairs are counted as the profile is read

mod meaning;
mod profile;
mod rule;

use meaning::{split, Set, Split};
use profile::Profile;
use std::fmt::{self, Display};
use std::io::{self, Write};
use std::process::ExitCode;
use std::{env, fs};

/// Why nothing was counted.
enum Stop {
    Usage,
    Rule,
    Profile(usize),
    Read,
    Write,
}

impl Stop {
    fn status(&self) -> u8 {
        match self {
            Stop::Usage => 2,
            Stop::Rule => 3,
            Stop::Profile(_) => 4,
            Stop::Read => 5,
            Stop::Write => 6,
        }
    }
}

impl Display for Stop {
    fn fmt(&self, to: &mut fmt::Formatter) -> fmt::Result {
        match self {
            Stop::Usage => write!(to, "usage fault"),
            Stop::Rule => write!(to, "text refused"),
            Stop::Profile(line) => write!(to, "profile refused at line {line}"),
            Stop::Read => write!(to, "read fault"),
            Stop::Write => write!(to, "write fault"),
        }
    }
}

fn line_of(name: &str, set: &Set) -> String {
    let members: String = set.iter().map(|x| format!(" {x}")).collect();
    format!("{name}:{members}\n")
}

fn text_of(split: &Split) -> String {
    line_of("elected", &split.elected)
        + &line_of("rejected", &split.rejected)
        + &line_of("deferred", &split.deferred)
}

fn count(rule_name: &str, profile_name: &str) -> Result<(), Stop> {
    let rule = fs::read_to_string(rule_name).map_err(|_| Stop::Read)?;
    let term = rule::read(&rule).ok_or(Stop::Rule)?;
    let bytes = fs::read(profile_name).map_err(|_| Stop::Read)?;
    let profile = Profile::read(&bytes).map_err(Stop::Profile)?;
    drop(bytes);
    let text = text_of(&split(&term, &profile, &profile.alternatives()));
    io::stdout()
        .write_all(text.as_bytes())
        .map_err(|_| Stop::Write)
}

fn run() -> Result<(), Stop> {
    let words: Vec<String> = env::args().skip(1).collect();
    match &words[..] {
        [command, rule, profile] if command == "count" => count(rule, profile),
        _ => Err(Stop::Usage),
    }
}

fn main() -> ExitCode {
    match run() {
        Ok(()) => ExitCode::SUCCESS,
        Err(stop) => {
            eprintln!("{stop}");
            ExitCode::from(stop.status())
        }
    }
}
