//! An independent evaluator: it asks majpipe requests and compares every number and byte of every reply with
//! its own answer, worked out from the specification (docs/SPEC.md) alone.

mod answer;
mod at_once;
#[cfg(test)]
mod at_once_case_tests;
mod at_once_counts;
#[cfg(test)]
mod at_once_refusal_tests;
#[cfg(test)]
mod at_once_tests;
#[cfg(test)]
mod block_case_tests;
mod block_counts;
#[cfg(test)]
mod block_tests;
mod cases;
mod catalogue;
mod catalogue_counts;
#[cfg(test)]
mod catalogue_tests;
mod counts;
mod depth_counts;
mod depth_kept;
#[cfg(test)]
mod depth_kept_tests;
#[cfg(test)]
mod depth_tests;
mod difference;
#[cfg(test)]
mod edge_tests;
#[cfg(test)]
mod first_two_tests;
mod follow;
mod follow_counts;
#[cfg(test)]
mod follow_tests;
mod graph;
#[cfg(test)]
mod helper_case_tests;
mod helper_counts;
#[cfg(test)]
mod helper_tests;
mod needs;
mod pipe;
mod probes_kept;
mod random;
mod reading;
mod request;
mod rm3;
mod run;
mod script;
#[cfg(test)]
mod sheet;
mod step;
mod stored;
mod stored_counts;
#[cfg(test)]
mod stored_tests;
mod table;
#[cfg(test)]
mod tests;
mod value;
mod voter;
#[cfg(test)]
mod voter_tests;

use counts::Counts;
use pipe::Pipe;
use run::{run, Settings, ENOUGH};
use std::process::ExitCode;

const HELP: &str = "\
evaluator [--seed S] [--count N] [--ops 1,2,3,...] [--save FILE] -- PROGRAM [ARGS..]

Starts PROGRAM (majpipe, perhaps behind an emulator) and compares N of its replies with its own answers.
Of what steps and translations leave it also asks the limits of depth, that a step but sweep leaves what stood below its gate, that the
gate to which a place of operation 28 leads has its first value, and that operation 16 makes no more RM3 operations than operation 6.
In 3000 requests or more it must meet tables that have gates and depth 0.
  --seed S     the run's seed (default 1); the same seed, count and operations give the same run
  --count N    how many requests (default 4000)
  --ops LIST   the operations to ask, 1 to 8, 16, 22, 23, 25 and 28 (default all)
  --save FILE  where to write the bytes of the request that met a difference, for PROGRAM's standard input

How the count is spread: of 41 requests operations 1 to 8 get 3, 2, 1, 8, 4, 3, 2 and 2, operations 16, 22, 23 and 25 get 3 each
and operation 28 gets 4 (those listed keep their shares). Each operation deals its kinds of cases from a shuffled deck, so that every kind comes once before one
comes again beyond its weight, and a kind goes through its variants in turn. Every 100th request of an operation is a
rare one: a part of 65,536 bytes, or for operations 5 and 28 at times a script of 5,000 to 8,192 steps, for 22, 23 and
28 8,192 places, and for 23 a table of 16 inputs and hundreds of gates.
More than half the scripts are stored ones, of the time before rule 10: PROGRAM gets them converted, and must do with
them what they did then.
With 3000 requests or more a run fails also when a refusal or a rule of its operations, one of the edges that refusal 5
carries, a refusal of a rule by operation 4 or 5, equal, opposite or other edges by rule 2 or 10, a stored script of each
sort, what may become of a followed gate, or one of the ways of blocks was never met: tables of block 0, of another and of
several, refusals of a kind by each of its bytes, shares within a block and across two, insertions and helpers among blocks,
rules with a high byte; or where operation 6 or 16 never met one of the 27 RM3 patterns, an inverse that is needed again in one of
the ways (in a plain middle, in another inverted edge, in another gate, within one, by an output, in another block), or an out buffer
exactly full or one byte short in the other mode; or where operation 22 or 23 never met one of the numbers of inputs, 0 to 18, one of the
sorts of first assignments and of places, refusals 15, 6 and 11 at once, or outputs that would be true past 2^n.
Which network operation 25 gives for a number is not said. It must be a table of three inputs and one output that computes the number, of
block 0, with every gate reached and as few gates as a search of its own finds, and the same in every buffer that holds it. A run fails where
operation 25 never met such a network of each size in a buffer exactly full, longer and one byte short, or one of the numbers that
are no function's; with 1200 requests of operation 25 or more, where it did not meet every number in each of these buffers and
every length of out from 0 to 96.
The exit status is 0 where all replies are as expected, 1 where not, and 2 for bad usage.
";

struct Arguments {
    settings: Settings,
    save: Option<String>,
    command: Vec<String>,
}

/// The arguments, or what is wrong with them; none where help is wanted.
fn arguments(mut given: impl Iterator<Item = String>) -> Result<Option<Arguments>, String> {
    let mut settings = Settings { seed: 1, count: 4000, operations: request::operations() };
    let mut save = None;
    loop {
        let option = given.next().ok_or("no program: give -- PROGRAM [ARGS..]")?;
        if option == "--help" {
            return Ok(None);
        }
        if option == "--" {
            break;
        }
        let value = given.next().ok_or(format!("{option} wants a value"))?;
        let number = || value.parse().map_err(|_| format!("{option}: {value} is no number"));
        match option.as_str() {
            "--seed" => settings.seed = number()?,
            "--count" if value == "0" => return Err("--count wants 1 or more".to_string()),
            "--count" => settings.count = number()? as usize,
            "--ops" => settings.operations = operations(&value)?,
            "--save" => save = Some(value),
            _ => return Err(format!("unknown option {option}")),
        }
    }
    let command: Vec<String> = given.collect();
    match command.is_empty() {
        true => Err("no program after --".to_string()),
        false => Ok(Some(Arguments { settings, save, command })),
    }
}

/// The listed operations in rising order, each once.
fn operations(list: &str) -> Result<Vec<u8>, String> {
    let known = request::operations();
    let numbers = list.split(',').map(|word| word.parse().ok().filter(|number| known.contains(number)));
    let numbers: Option<Vec<u8>> = numbers.collect();
    let mut numbers = numbers.ok_or(format!("--ops: {list} is no list of operations 1 to 8, 16, 22, 23, 25 and 28"))?;
    numbers.sort_unstable();
    numbers.dedup();
    Ok(numbers)
}

/// Runs against the program; what went wrong comes back as the lines to print.
fn check(arguments: &Arguments, counts: &mut Counts) -> Result<(), String> {
    let settings = &arguments.settings;
    let mut pipe = Pipe::start(&arguments.command)?;
    let outcome = run(settings, counts, &mut |request, length| pipe.ask(request.bytes(), length));
    if let Err(difference) = outcome {
        let mut text = difference.text;
        if let Some(file) = &arguments.save {
            let saved = std::fs::write(file, difference.request.bytes());
            text += &match saved {
                Ok(()) => format!("the request's bytes are in {file}"),
                Err(error) => {
                    format!("the request's bytes could not be written to {file}: {error}")
                }
            };
        }
        return Err(text);
    }
    pipe.finish()?;
    println!("seed {}\n{}", settings.seed, counts.report());
    let never = if settings.count < ENOUGH { vec![] } else { counts.never_met(&settings.operations) };
    match never.is_empty() {
        true => Ok(()),
        false => Err(never.join("\n")),
    }
}

fn main() -> ExitCode {
    let arguments = match arguments(std::env::args().skip(1)) {
        Ok(Some(arguments)) => arguments,
        Ok(None) => {
            print!("{HELP}");
            return ExitCode::SUCCESS;
        }
        Err(fault) => {
            eprintln!("evaluator: {fault}");
            return ExitCode::from(2);
        }
    };
    let mut counts = Counts::default();
    let outcome = check(&arguments, &mut counts);
    if let Err(text) = &outcome {
        println!("{}", text.trim_end());
    }
    println!("{} passed, {} failed", counts.passed(), u8::from(outcome.is_err()));
    ExitCode::from(u8::from(outcome.is_err()))
}
