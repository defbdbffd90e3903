//! Compares the library with the unchanged Rust that it takes the place of, and measures both.

mod answer;
mod arguments;
mod benchmark;
mod buffers;
mod call;
mod calls;
mod comparison;
mod corpus;
mod counting;
mod cut;
mod differential;
mod documented;
mod draft;
mod faults;
#[cfg(feature = "fuzz")]
mod fuzz;
mod hex;
mod inputs;
mod instructions;
mod lent;
mod line;
mod oracle;
mod profile;
mod random;
mod register;
mod rows;
mod rust;
mod self_test;
mod stored;
mod table;
mod timing;
mod unused;
mod used;

use arguments::Arguments;
use call::Call;
use random::DEFAULT_SEED;
use std::process::ExitCode;
use std::time::Duration;
use std::{env, fs, io};

const USAGE: &str = "\
harness differential [--calls A,B] [--seed N] [--minutes M]   compare every call with the Rust
harness self-test [--calls A,B]                               check that wrong libraries are caught
harness stored [--calls A,B] [FILE]                           write a sample of the Rust's answers
harness answers [--calls A,B] FILE..                          print what has to be answered to the bytes of a file, under 1.0
harness used                                                  write values and the names that they look up
harness benchmark [--calls A,B] [--rows PART]                 measure every call against the Rust
harness instructions [--calls A,B] [--rows PART] [--before FILE]   count both sides' instructions (valgrind)
harness corpus FOLDER                                         print those of a fuzzer's inputs that are kept
harness fuzz OPTIONS                                          run libFuzzer (where it is built in: ../scripts/fuzz)";

fn main() -> ExitCode {
    let words: Vec<String> = env::args().skip(1).collect();
    let words: Vec<&str> = words.iter().map(String::as_str).collect();
    match run(&words) {
        Some(true) => ExitCode::SUCCESS,
        Some(false) => ExitCode::FAILURE,
        None => {
            eprintln!("{USAGE}");
            ExitCode::from(2)
        }
    }
}

/// Whether the command passed; nothing for words that are no command.
fn run(words: &[&str]) -> Option<bool> {
    let (command, words) = words.split_first()?;
    #[cfg(feature = "fuzz")]
    if *command == "fuzz" {
        return Some(fuzz::run(words));
    }
    let (calls, words) = match words {
        ["--calls", names, rest @ ..] => (names.split(',').collect(), rest),
        _ => (vec![], words),
    };
    let calls = calls::named(&calls)?;
    match (*command, words) {
        ("differential", options) => differential(&calls, options),
        ("self-test", []) => Some(self_test::run(&calls)),
        ("stored", []) => Some(passed(stored::write(&calls, &mut io::stdout()))),
        ("stored", [file]) => Some(passed(store(&calls, file))),
        ("answers", files) => Some(passed(print_answers(&calls, files))),
        ("used", []) => Some(passed(used::write(&mut io::stdout()))),
        ("corpus", [folder]) => Some(passed(corpus::choose(folder, &mut io::stdout()))),
        ("benchmark", []) => {
            benchmark::run(&calls, "");
            Some(true)
        }
        ("benchmark", ["--rows", part]) => {
            benchmark::run(&calls, part);
            Some(true)
        }
        ("instructions", options) => instructions(&calls, options),
        _ => None,
    }
}

fn differential(calls: &[&Call], options: &[&str]) -> Option<bool> {
    let mut seed = DEFAULT_SEED;
    let mut minutes = 0.0;
    for option in options.chunks(2) {
        match option {
            ["--seed", number] => seed = number.parse().ok()?,
            ["--minutes", number] => minutes = number.parse().ok()?,
            _ => return None,
        }
    }
    let time = Duration::try_from_secs_f64(minutes * 60.0).ok()?;
    Some(differential::run(calls, seed, time))
}

fn instructions(calls: &[&Call], options: &[&str]) -> Option<bool> {
    let (mut part, mut before) = ("", None);
    for option in options.chunks(2) {
        match option {
            ["--rows", name] => part = name,
            ["--before", file] => before = Some(*file),
            [instructions::UNDER_CALLGRIND] => {
                instructions::run_under_callgrind(calls, part);
                return Some(true);
            }
            _ => return None,
        }
    }
    Some(passed(instructions::run(calls, part, before)))
}

/// The number and both words, with all the room that is needed.
fn print_answers(calls: &[&Call], files: &[&str]) -> io::Result<()> {
    for file in files {
        let text = fs::read(file)?;
        for call in calls {
            let answer = (call.expected)(&Arguments::text(&text));
            println!("{} {} {}", answer.number, answer.first, answer.second);
        }
    }
    Ok(())
}

fn store(calls: &[&Call], file: &str) -> io::Result<()> {
    let mut text = vec![];
    stored::write(calls, &mut text)?;
    fs::write(file, text)
}

fn passed(result: io::Result<()>) -> bool {
    if let Err(error) = &result {
        eprintln!("{error}");
    }
    result.is_ok()
}
