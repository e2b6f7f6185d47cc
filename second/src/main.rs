//! The `second` program.

use second::cases::cases;
use second::crew::Shape;
use second::explore::{explore, Tiny};
use second::images::images;
use second::print::print;
use second::simulate::{simulate, Settings};
use second::store::{Looked, Second, Store};
use second::stream::{replay, Answers, ReplayError};
use std::io::{self, BufReader, BufWriter, Read, Write};
use std::process::ExitCode;

const USAGE: &str = "\
usage:
  second simulate [--seed N] [--steps N] [--crew SHAPE] [--longest N]
      runs random crews and holds every reading against the demand;
      SHAPE is one of solo pair trio chain eight few overlap many top any (default: all in turn);
      a crew lives for at most --longest steps (default 3000)
  second explore [--crew TINY] [--depth N]
      takes every run of N steps (default 5) of a tiny crew: pair, trio or chain (default: each of them)
  second cases [--seed N] [--count N] [--stats]
      writes a stream of recorded calls to standard output (CASES.md describes it);
      --stats tells on standard error how many calls of each kind gave which answer
  second images [--seed N] [--count N] [--stats]
      writes a stream of images, good ones and others, each with the verdict whether it is good;
      --stats tells on standard error how many of each kind were good
  second replay [--stats] [--look] [FILE]
      reads such a stream from the file, or from standard input, makes its calls and compares;
      --look also looks whether each accepted call leaves a good image
  second print
      reads an image from standard input and prints it
  second refusals
      lists which call can give which refusals

exit: 0 done, nothing wrong; 1 a violation or a mismatch; 2 wrong usage, or a stream that is none";

/// How a run ended otherwise than well.
enum Failure {
    /// A violation or a mismatch.
    Found(String),
    /// Wrong usage, or something that could not be read or written.
    Usage(String),
}

impl From<io::Error> for Failure {
    fn from(error: io::Error) -> Failure {
        Failure::Usage(error.to_string())
    }
}

fn main() -> ExitCode {
    let mut arguments = std::env::args().skip(1);
    let command = arguments.next().unwrap_or_default();
    let options = match Options::read(arguments) {
        Ok(options) => options,
        Err(what) => return failed(Failure::Usage(format!("{what}\n{USAGE}"))),
    };
    let outcome = match command.as_str() {
        "simulate" => run_simulate(&options),
        "explore" => run_explore(&options),
        "cases" => run_cases(&options),
        "images" => run_images(&options),
        "replay" => run_replay(&options),
        "print" => run_print(),
        "refusals" => run_refusals(),
        "help" | "--help" | "-h" => io::stdout().write_all(format!("{USAGE}\n").as_bytes()).map_err(Failure::from),
        _ => Err(Failure::Usage(USAGE.into())),
    };
    outcome.map_or_else(failed, |()| ExitCode::SUCCESS)
}

fn failed(failure: Failure) -> ExitCode {
    let (text, code) = match failure {
        Failure::Found(text) => (text, 1),
        Failure::Usage(text) => (text, 2),
    };
    eprintln!("{text}");
    ExitCode::from(code)
}

/// What stands on the command line behind the command.
struct Options {
    seed: u64,
    steps: u64,
    count: u64,
    longest: usize,
    depth: u32,
    crew: Option<String>,
    stats: bool,
    look: bool,
    file: Option<String>,
}

impl Options {
    fn read(mut arguments: impl Iterator<Item = String>) -> Result<Options, String> {
        let mut options = Options {
            seed: 1,
            steps: 100_000,
            count: 100_000,
            longest: 3000,
            depth: 5,
            crew: None,
            stats: false,
            look: false,
            file: None,
        };
        while let Some(argument) = arguments.next() {
            let mut value = || arguments.next().ok_or(format!("{argument} needs a value"));
            match argument.as_str() {
                "--seed" => options.seed = number(&value()?)?,
                "--steps" => options.steps = number(&value()?)?,
                "--count" => options.count = number(&value()?)?,
                "--longest" => options.longest = number(&value()?)?.max(1) as usize,
                "--depth" => options.depth = number(&value()?)?.min(12) as u32,
                "--crew" => options.crew = Some(value()?),
                "--stats" => options.stats = true,
                "--look" => options.look = true,
                _ if argument.starts_with("--") => return Err(format!("{argument} is not known")),
                _ => options.file = Some(argument),
            }
        }
        Ok(options)
    }
}

/// A number, perhaps with underscores between its digits.
fn number(text: &str) -> Result<u64, String> {
    text.replace('_', "").parse().map_err(|_| format!("{text} is not a number"))
}

fn run_simulate(options: &Options) -> Result<(), Failure> {
    let shape = match &options.crew {
        Some(name) => Some(Shape::named(name).ok_or_else(|| no_such_crew(name))?),
        None => None,
    };
    let settings = Settings { seed: options.seed, steps: options.steps, shape, longest: options.longest };
    let report = simulate(&Second, &settings).map_err(|violation| Failure::Found(violation.to_string()))?;
    writeln!(io::stdout(), "{report}no violation")?;
    Ok(())
}

fn no_such_crew(name: &str) -> Failure {
    Failure::Usage(format!("no crew is called {name}\n{USAGE}"))
}

fn run_explore(options: &Options) -> Result<(), Failure> {
    let names = match &options.crew {
        Some(name) => vec![name.as_str()],
        None => vec!["pair", "trio", "chain"],
    };
    for name in names {
        let tiny = Tiny::named(name).ok_or_else(|| no_such_crew(name))?;
        let explored = explore(&tiny, options.depth).map_err(Failure::Found)?;
        let (steps, situations) = (explored.steps, explored.situations);
        println!("{name} depth {} steps {steps} situations {situations} no violation", options.depth);
    }
    Ok(())
}

fn run_cases(options: &Options) -> Result<(), Failure> {
    let out = BufWriter::with_capacity(1 << 20, io::stdout().lock());
    let answers = cases(&Second, options.seed, options.count, out)?;
    if options.stats {
        eprint!("{}", table(&answers));
    }
    Ok(())
}

fn run_images(options: &Options) -> Result<(), Failure> {
    let out = BufWriter::with_capacity(1 << 20, io::stdout().lock());
    let tally = images(options.seed, options.count, out)?;
    if options.stats {
        for (kind, [bad, good]) in tally {
            eprintln!("{kind:60} good {good:7} not good {bad:7}");
        }
    }
    Ok(())
}

fn run_replay(options: &Options) -> Result<(), Failure> {
    let stream: Box<dyn Read> = match &options.file {
        Some(file) => Box::new(std::fs::File::open(file)?),
        None => Box::new(io::stdin()),
    };
    let store: &dyn Store = if options.look { &Looked } else { &Second };
    let replayed = replay(store, BufReader::with_capacity(1 << 20, stream)).map_err(|error| match error {
        ReplayError::Stream(_) => Failure::Usage(error.to_string()),
        ReplayError::Mismatch(_) => Failure::Found(error.to_string()),
    })?;
    if options.stats {
        print!("{}", table(&replayed.answers));
    }
    println!("{} calls, no mismatch", replayed.calls);
    Ok(())
}

fn table(answers: &Answers) -> String {
    answers.iter().map(|((op, answer), times)| format!("{:10} answer {answer:2} times {times}\n", op.name())).collect()
}

fn run_print() -> Result<(), Failure> {
    let mut image = Vec::new();
    io::stdin().read_to_end(&mut image)?;
    io::stdout().write_all(print(&image).as_bytes())?;
    Ok(())
}

fn run_refusals() -> Result<(), Failure> {
    for op in second::call::Op::ALL {
        let numbers: Vec<String> = op.refusals().iter().map(|refusal| refusal.number().to_string()).collect();
        println!("{:10} {}", op.name(), numbers.join(" "));
    }
    Ok(())
}
