//! The arguments: docs/report.md, "Arguments".

use crate::{Number, Tokens, MOST_RACES, MOST_ROUNDS};

const MOST_SHARDS: Number = 64;
pub const USAGE: &str =
    "usage: er_cli [check|gen|schedule|explain|jsonl] [--shards N] [--json] [--number N] [--race N] [--from N] [--to N]";

/// What is to be done. The number of shards changes no answer, so it is dropped.
pub enum Command {
    Check { json: bool, of_json: bool },
    Gen { rounds: Number },
    Schedule { race: Number },
    Explain { from: Number, to: Number },
}

impl Command {
    pub fn is_json(&self) -> bool {
        matches!(self, Command::Check { json: true, .. })
    }
}

const OPTIONS: [&str; 5] = ["--shards", "--number", "--race", "--from", "--to"];

/// What is given: the value of each option, whether `--json` is, and the subcommand.
#[derive(Default)]
struct Given<'a> { values: [Option<&'a str>; 5], json: bool, mode: Option<&'a str> }

impl Given<'_> {
    /// The value of an option as a number from `least` to `most`.
    fn number(&self, option: usize, least: Number, most: Number) -> Option<Number> {
        Tokens::of_text(self.values[option]?.as_bytes()).number().filter(|number| (least..=most).contains(number))
    }

    /// Whether of the options with a value, `--shards` left out, exactly these are given.
    fn has_only(&self, options: &[usize]) -> bool {
        (1..OPTIONS.len()).all(|option| self.values[option].is_some() == options.contains(&option))
    }
}

/// The arguments one by one: an option's value is the next argument, or follows `=`. None where one of them is wrong.
fn given(arguments: &[String]) -> Option<Given<'_>> {
    let mut given = Given::default();
    let (mut left, mut takes_options) = (arguments.iter(), true);
    while let Some(argument) = left.next() {
        if !takes_options || !argument.starts_with('-') {
            if given.mode.replace(argument).is_some() {
                return None;
            }
        } else if argument == "--" {
            takes_options = false;
        } else if argument == "--json" {
            if std::mem::replace(&mut given.json, true) {
                return None;
            }
        } else {
            let (name, value) = argument.split_once('=').map_or((argument.as_str(), None), |(name, value)| (name, Some(value)));
            let option = OPTIONS.iter().position(|known| *known == name)?;
            let value = match value {
                Some(value) => value,
                None => left.next()?,
            };
            if given.values[option].replace(value).is_some() {
                return None;
            }
        }
    }
    Some(given)
}

/// The command of these arguments, or none.
pub fn command_of(arguments: &[String]) -> Option<Command> {
    let given = given(arguments)?;
    let shards = given.values[0].is_none() || given.number(0, 1, MOST_SHARDS).is_some();
    let (command, options) = match given.mode.unwrap_or("check") {
        mode @ ("check" | "jsonl") => (Command::Check { json: given.json, of_json: mode == "jsonl" }, &[][..]),
        "gen" => (Command::Gen { rounds: given.number(1, 1, MOST_ROUNDS)? }, &[1][..]),
        "schedule" => (Command::Schedule { race: given.number(2, 1, MOST_RACES as Number)? }, &[2][..]),
        "explain" if given.values[0].is_none() => {
            let [from, to] = [given.number(3, 0, Number::MAX)?, given.number(4, 0, Number::MAX)?];
            (Command::Explain { from, to }, &[3, 4][..])
        }
        _ => return None,
    };
    let is_right = shards && given.has_only(options) && (command.is_json() || !given.json);
    is_right.then_some(command)
}
