//! An independent implementation of the leverage book, and the means to
//! compare another one with it.

#![deny(unsafe_code)]

#[cfg(feature = "library")]
mod bench;
mod comparison;
mod fast;
mod filing;
mod generate;
mod laws;
#[cfg(feature = "library")]
#[allow(unsafe_code)]
mod library;
mod model;
mod printing;
mod reached;
mod samples;
mod text;

use std::io::{self, Read, Write};
use std::path::Path;
use std::process::ExitCode;
use std::{env, fs};

const USAGE: &str = "\
selftest N SEED    check the model, and `fast` with it, on N generated books
compare N SEED     compare the library with the model (feature `library`)
bench              time the library and Rust (feature `library`)
text FILE          turn a text book into little-endian words on standard output
set FILE ORDINAL   write the records of one set of a text book (feature `library`)
settings FILE ORDINAL
                   write how many settings of that set's marks lead to each
                   verdict (feature `library`)
print              write what the printing program is to write for standard input
samples N SEED DIR write the books of the test program and its lines";

fn main() -> ExitCode {
    let arguments: Vec<String> = env::args().skip(1).collect();
    let arguments: Vec<&str> = arguments.iter().map(String::as_str).collect();
    match run(&arguments) {
        Ok(()) => ExitCode::SUCCESS,
        Err(message) => {
            eprintln!("{message}");
            ExitCode::FAILURE
        }
    }
}

fn run(arguments: &[&str]) -> Result<(), String> {
    match *arguments {
        ["selftest", books, seed] => selftest(number(books)?, number(seed)?),
        ["compare", books, seed] => compare(number(books)?, number(seed)?),
        ["bench"] => bench(),
        ["text", file] => print_words(file),
        ["set", file, set] => print_set(file, ordinal(set)?),
        ["settings", file, set] => print_settings(file, ordinal(set)?),
        ["print"] => print_template(),
        ["samples", books, seed, folder] => {
            samples::write(number(books)?, number(seed)?, Path::new(folder))
        }
        _ => Err(USAGE.to_string()),
    }
}

fn number(text: &str) -> Result<u64, String> {
    text.parse().map_err(|error| format!("{text}: {error}"))
}

fn ordinal(text: &str) -> Result<usize, String> {
    let no_ordinal = |_| format!("{text} is no ordinal of a set, from 0 to {}", usize::MAX);
    text.parse().map_err(no_ordinal)
}

fn words_of(file: &str) -> Result<Vec<u32>, String> {
    let source = fs::read_to_string(file).map_err(|error| format!("{file}: {error}"))?;
    text::words(&source).map_err(|error| format!("{file}: {error}"))
}

fn print_words(file: &str) -> Result<(), String> {
    let words = words_of(file)?;
    let bytes: Vec<u8> = words.iter().flat_map(|word| word.to_le_bytes()).collect();
    let written = io::stdout().write_all(&bytes);
    written.map_err(|error| error.to_string())
}

fn print_template() -> Result<(), String> {
    let mut bytes = Vec::new();
    let read = io::stdin().read_to_end(&mut bytes);
    read.map_err(|error| error.to_string())?;
    print!("{}", printing::printed(&bytes));
    Ok(())
}

fn selftest(books: u64, seed: u64) -> Result<(), String> {
    let peer = comparison::Peer {
        name: "fast",
        file: fast::file,
        show: fast::show,
        settings: fast::settings,
    };
    comparison::run(peer, books, seed)
}

#[cfg(feature = "library")]
fn compare(books: u64, seed: u64) -> Result<(), String> {
    let peer = comparison::Peer {
        name: "library",
        file: library::file,
        show: library::show,
        settings: library::settings,
    };
    comparison::run(peer, books, seed)
}

/// A register with as many entries as a book can use.
#[cfg(feature = "library")]
fn register() -> Vec<model::Entry> {
    vec![model::Entry::default(); 4_096]
}

#[cfg(feature = "library")]
fn print_set(file: &str, ordinal: usize) -> Result<(), String> {
    let book = words_of(file)?;
    let shown = library::show(&book, ordinal, &mut register());
    print!("{}", text::set::lines(&book, ordinal, &shown));
    Ok(())
}

#[cfg(feature = "library")]
fn print_settings(file: &str, ordinal: usize) -> Result<(), String> {
    let book = words_of(file)?;
    let counted = library::settings(&book, ordinal, &mut register());
    print!("{}", text::settings::lines(&counted));
    Ok(())
}

#[cfg(feature = "library")]
fn bench() -> Result<(), String> {
    bench::run();
    Ok(())
}

#[cfg(not(feature = "library"))]
fn compare(_books: u64, _seed: u64) -> Result<(), String> {
    Err("built without the feature `library`".to_string())
}

#[cfg(not(feature = "library"))]
fn print_set(_file: &str, _ordinal: usize) -> Result<(), String> {
    Err("built without the feature `library`".to_string())
}

#[cfg(not(feature = "library"))]
fn print_settings(_file: &str, _ordinal: usize) -> Result<(), String> {
    Err("built without the feature `library`".to_string())
}

#[cfg(not(feature = "library"))]
fn bench() -> Result<(), String> {
    Err("built without the feature `library`".to_string())
}
