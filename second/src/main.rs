//! A second program for the chain register, written from the rules alone. It makes requests and
//! bundles from seeds and answers them in its own way, so that the real programs can be compared
//! with it. Trees are compared by splitting after Hopcroft, not by rounds.

#![forbid(unsafe_code)]

mod answers;
mod bundle;
mod converting;
mod counts;
mod dice;
mod faults;
mod law;
mod making;
mod mending;
mod operations;
mod program;
mod requests;
mod rows;
mod running;
mod sameness;
mod sheet;
mod store;
mod strict;
#[cfg(test)]
mod tests;
mod wires;

use std::io::{self, BufWriter, Read, Write};
use std::process::ExitCode;

const HELP: &str = "\
second: a second program for the chain register, to compare the real ones with

  second make SEED COUNT      write COUNT requests that follow from SEED alone
  second answer               read requests, write a line for each
  second pick K               read requests, write the K-th alone, counted from 1
  second bundle SEED COUNT    write a bundle of COUNT sheets that follows from SEED
  second stress SEED          write a bundle of a deep chain and as many tiny sheets as fit
  second program              read a bundle, write the lines of the program for it
  second faults               list the faults that can be planted: the rules' easy ways to be wrong
  second more-faults          list the others
  second help                 write this

  second --fault NAME answer
  second --fault NAME program
                              the same with a fault planted, to see that it is noticed

Everything is read from standard input and written to standard output.
SEED, COUNT and K are whole numbers in decimal.
";

/// Why nothing, or not all, was written.
enum Trouble {
    /// Asked for wrongly: the help text goes with it.
    Usage(String),
    /// Asked for rightly, but it cannot be given.
    Message(String),
}

impl From<io::Error> for Trouble {
    fn from(error: io::Error) -> Trouble {
        Trouble::Message(error.to_string())
    }
}

fn main() -> ExitCode {
    let arguments: Vec<String> =
        std::env::args_os().skip(1).map(|one| one.to_string_lossy().into_owned()).collect();
    let arguments: Vec<&str> = arguments.iter().map(String::as_str).collect();
    let mut out = BufWriter::new(io::stdout().lock());
    let result = run(&arguments, &mut out).and_then(|()| Ok(out.flush()?));
    match result {
        Ok(()) => ExitCode::SUCCESS,
        Err(Trouble::Usage(message)) => {
            eprint!("second: {message}\n\n{HELP}");
            ExitCode::from(2)
        }
        Err(Trouble::Message(message)) => {
            eprintln!("second: {message}");
            ExitCode::from(1)
        }
    }
}

fn run(arguments: &[&str], out: &mut impl Write) -> Result<(), Trouble> {
    match arguments {
        ["--fault", name, verb @ ("answer" | "program")] => {
            let fault = faults::named(name).ok_or_else(|| {
                usage(format!(
                    "no fault is called '{name}'; `second faults` and `second more-faults` list them"
                ))
            })?;
            faults::plant(fault);
            run(&[verb], out)
        }
        ["--fault", ..] => Err(usage("--fault takes a fault's name and then `answer` or `program`")),
        ["make", seed, count] => make(number("SEED", seed)?, number("COUNT", count)?, out),
        ["answer"] => Ok(answers::answer_all(&input()?, out)?),
        ["pick", place] => pick(number("K", place)?, out),
        ["bundle", seed, count] => write_bundle(number("SEED", seed)?, number("COUNT", count)?, out),
        ["stress", seed] => Ok(out.write_all(&making::bundles::stress(number("SEED", seed)?))?),
        ["program"] => Ok(program::run(&input()?, out)?),
        ["faults"] => Ok(faults::NAMES.iter().try_for_each(|(name, _)| writeln!(out, "{name}"))?),
        ["more-faults"] => Ok(faults::MORE.iter().try_for_each(|(name, _)| writeln!(out, "{name}"))?),
        ["help" | "--help" | "-h"] => Ok(out.write_all(HELP.as_bytes())?),
        [] => Err(usage("a verb is missing")),
        [verb @ ("make" | "bundle"), ..] => Err(usage(format!("{verb} takes SEED and COUNT"))),
        ["pick", ..] => Err(usage("pick takes K")),
        ["stress", ..] => Err(usage("stress takes SEED")),
        [verb @ ("answer" | "program" | "faults" | "more-faults" | "help"), ..] => {
            Err(usage(format!("{verb} takes nothing behind it")))
        }
        [verb, ..] => Err(usage(format!("no verb is called '{verb}'"))),
    }
}

fn usage(message: impl Into<String>) -> Trouble {
    Trouble::Usage(message.into())
}

fn number(name: &str, written: &str) -> Result<u64, Trouble> {
    let plain = !written.is_empty() && written.bytes().all(|byte| byte.is_ascii_digit());
    let read = if plain { written.parse().ok() } else { None };
    read.ok_or_else(|| {
        usage(format!("{name} must be a whole number from 0 to {}, not '{written}'", u64::MAX))
    })
}

fn input() -> io::Result<Vec<u8>> {
    let mut bytes = Vec::new();
    io::stdin().lock().read_to_end(&mut bytes)?;
    Ok(bytes)
}

fn make(seed: u64, count: u64, out: &mut impl Write) -> Result<(), Trouble> {
    for place in 0..count {
        out.write_all(&making::request(seed, place).written())?;
    }
    Ok(())
}

fn pick(place: u64, out: &mut impl Write) -> Result<(), Trouble> {
    if place == 0 {
        return Err(usage("K is counted from 1"));
    }
    let bytes = input()?;
    let found = usize::try_from(place).ok().and_then(|place| requests::pick(&bytes, place));
    let request = found.ok_or_else(|| Trouble::Message(format!("there is no request {place}")))?;
    Ok(out.write_all(request)?)
}

fn write_bundle(seed: u64, count: u64, out: &mut impl Write) -> Result<(), Trouble> {
    let most = making::bundles::MOST_SHEETS;
    if count > most as u64 {
        return Err(Trouble::Usage(format!("COUNT must be at most {most}: more sheets do not fit a bundle")));
    }
    Ok(out.write_all(&making::bundles::bundle(seed, count as usize))?)
}
