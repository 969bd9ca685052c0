//! The original Rust reader of Turing machine descriptions, run as the judge of the port.
//!
//! `original` is the copied source. `trace` and `tokens` get at what it keeps to itself (they
//! are mounted inside it, see `original/dsl`). Everything else is written from paper 01: what a
//! call answers (`head`, `sheet`, `log`, `outcome`), the plain form (`plain`), agreement
//! (`agree`), the listing (`list`), and the commands on top; and, from a definition of the port,
//! inference on a machine as a value (`infer`).

extern crate alloc;

mod agree;
mod batch;
mod bench;
mod chars;
mod compare;
mod dump;
mod families;
mod foreign;
mod head;
mod hours;
mod infer;
mod list;
mod log;
mod longest;
mod outcome;
mod place;
mod plain;
mod plant;
mod reading;
mod recover;
mod self_check;
mod sheet;
mod sizes;
mod store;
mod tally;

#[cfg(test)]
mod facts;

#[allow(dead_code)] // What the checks and the runner of the original would use.
mod original;

// The copied files name their neighbours as modules of the crate's root.
use original::{diag, dsl, machine, spec, symbol};

use dsl::parser::trace;
use dsl::tokens;

use std::io::{self, Read, Write};
use std::path::{Path, PathBuf};
use std::process::ExitCode;

use families::{Family, Selection};
use outcome::Lengths;
use plant::Fault;

const USAGE: &str = "\
usage:
  oracle dump FILE                     the whole outcome of a text, `-` for standard input
  oracle call FILE WORK LOG SHEET OUTPUT
                                       both calls with buffers of these lengths
  oracle batch STEPS CELLS FILE..      a batch call on these texts
  oracle list FILE                     the listing of the list program
  oracle gen FAMILY COUNT SEED [DIR]   texts, to standard output or one file each into DIR
  oracle store COUNT SEED              stored answers for COUNT texts of each family
  oracle self [COUNT [SEED [FAMILY]]] [--plant layout|form|leading|sizes]
  oracle compare [tokens|read|write|read-records|write-records|list] [COUNT [SEED [FAMILY]]]
  oracle compare hours [COUNT [SEED]]  the opening hours of a station, on COUNT random lists
  oracle compare longest [TRIES [SEED]]  the lines that expand the most, and TRIES to beat them
  oracle self batch [COUNT [SEED [FAMILY]]] [--plant FAULT]
  oracle compare batch [COUNT [SEED [FAMILY]]]
                                       batches of machines that run, of families of their own
  oracle infer [COUNT [SEED [FAMILY]]] inference on made-up machines, and a second one on texts
  oracle infer-cases COUNT SEED        machines and what is inferred, for tools/inference.py
  oracle bench [--callgrind] [--small-pages] [--size BYTES] [CASE..]
                                       time, or instructions, of the original and of the port
  oracle bench runs [BATCH..]          time of the port's runs, beside a dense table
families: grammar damaged soup short lines limits changed joined odd filled spliced named listed large glyphs
of batches: decided beavers machines edges inputs names rules refusals texts lengths traces many large";

/// What `compare` runs over unless told otherwise.
const EVERY_CALL: [&str; 6] = [
    "tokens",
    "read",
    "write",
    "read-records",
    "write-records",
    "list",
];

/// Lists that `compare hours` runs over unless told otherwise.
const DEFAULT_LISTS: u64 = 1_000_000;

/// Tries that `compare longest` makes unless told otherwise.
const DEFAULT_TRIES: u64 = 2_000_000;

/// Texts that `self` and `compare` run over unless told otherwise.
const DEFAULT_COUNT: u64 = 20_000;

fn main() -> ExitCode {
    let arguments: Vec<String> = std::env::args().skip(1).collect();
    let arguments: Vec<&str> = arguments.iter().map(String::as_str).collect();
    match run(&arguments) {
        Ok(true) => ExitCode::SUCCESS,
        Ok(false) => ExitCode::FAILURE,
        Err(message) => {
            eprintln!("{message}");
            ExitCode::from(2)
        }
    }
}

/// Runs a command; false if what it checks does not hold.
fn run(arguments: &[&str]) -> Result<bool, String> {
    match arguments {
        ["dump", file] => print(dump::dump(&read_file(file)?).as_bytes()),
        ["call", file, rest @ ..] => {
            print(dump::calls(&read_file(file)?, lengths(rest)?).as_bytes())
        }
        ["batch", steps, cells, files @ ..] => batch_call(steps, cells, files),
        ["list", file] => print(list::listing(&read_file(file)?).as_bytes()),
        ["gen", family, count, seed] => generate(family, count, seed, None),
        ["gen", family, count, seed, directory] => generate(family, count, seed, Some(directory)),
        ["store", count, seed] => store(number(count)?, number(seed)?),
        ["self", "batch", rest @ ..] => self_check_batches(rest),
        ["self", rest @ ..] => self_check(rest),
        ["infer", rest @ ..] => Ok(infer::run(selection(rest)?)),
        ["infer-cases", count, seed] => {
            print(infer::cases(number(count)?, number(seed)?).as_bytes())
        }
        [
            "compare",
            which @ ("tokens" | "read" | "write" | "read-records" | "write-records" | "list"),
            rest @ ..,
        ] => compare(&[which], rest),
        ["compare", "hours", rest @ ..] => compare_hours(rest),
        ["compare", "longest", rest @ ..] => compare_longest(rest),
        ["compare", "batch", rest @ ..] => compare_batches(rest),
        ["compare", rest @ ..] => compare(&EVERY_CALL, rest),
        ["bench", "--once", side, case, numbers @ ..] => bench_once(side, case, numbers),
        ["bench", "runs", names @ ..] => bench::runs_table(names),
        ["bench", "--callgrind", rest @ ..] => bench::count(&bench_options(rest)?),
        ["bench", rest @ ..] => bench::times(&bench_options(rest)?),
        _ => Err(USAGE.into()),
    }
}

fn bench_options<'a>(arguments: &[&'a str]) -> Result<bench::Options<'a>, String> {
    let (pages, arguments) = match arguments {
        ["--small-pages", rest @ ..] => (bench::Pages::Small, rest),
        rest => (bench::Pages::Large, rest),
    };
    let (size, names) = match arguments {
        ["--size", size, names @ ..] => (Some(number(size)? as usize), names),
        names => (None, names),
    };
    let names = names.to_vec();
    Ok(bench::Options { names, size, pages })
}

/// One call with a text of the case and size, and buffers for log, sheet and output of these lengths.
fn bench_once(side: &str, case: &str, numbers: &[&str]) -> Result<bool, String> {
    let [size, log, sheet, output] = numbers else {
        return Err(USAGE.into());
    };
    let length = |text| number(text).map(|n| n as usize);
    let lent = [length(log)?, length(sheet)?, length(output)?];
    bench::once(side, case, length(size)?, lent)
}

fn print(bytes: &[u8]) -> Result<bool, String> {
    let written = io::stdout().write_all(bytes);
    written.map(|()| true).map_err(|e| e.to_string())
}

/// Stored answers to standard output and what they are to standard error; false if a kind is missing.
fn store(count: u64, seed: u64) -> Result<bool, String> {
    let stored = store::cases(count, seed);
    match stored.report() {
        Ok(report) => {
            eprint!("{report}");
            print(&stored.bytes())
        }
        Err(missing) => {
            eprintln!("{missing}");
            Ok(false)
        }
    }
}

fn read_file(name: &str) -> Result<Vec<u8>, String> {
    let mut text = Vec::new();
    let read = match name {
        "-" => io::stdin().read_to_end(&mut text),
        _ => std::fs::File::open(name).and_then(|mut file| file.read_to_end(&mut text)),
    };
    read.map_err(|e| format!("{name}: {e}"))?;
    Ok(text)
}

fn number(text: &str) -> Result<u64, String> {
    text.parse().map_err(|_| format!("{text} is no number"))
}

fn lengths(arguments: &[&str]) -> Result<Lengths, String> {
    let [work, log, sheet, output] = arguments else {
        return Err(USAGE.into());
    };
    let length = |text| number(text).map(|n| n as usize);
    Ok(Lengths {
        work: length(work)?,
        log: length(log)?,
        sheet: length(sheet)?,
        output: length(output)?,
    })
}

/// Writes each text as its length in decimal, a line feed, its bytes and a line feed; or, with a
/// directory, as a file of its own.
fn generate(
    family: &str,
    count: &str,
    seed: &str,
    directory: Option<&str>,
) -> Result<bool, String> {
    let family = self::family(family)?;
    let (count, seed) = (number(count)?, number(seed)?);
    let mut out = io::BufWriter::new(io::stdout().lock());
    for index in 0..count {
        let text = family.text(index, seed);
        let written = match directory {
            Some(directory) => {
                let name = format!("{}-{seed}-{index}.tm", family.name());
                std::fs::write(Path::new(directory).join(name), &text)
            }
            None => writeln!(out, "{}", text.len())
                .and_then(|()| out.write_all(&text))
                .and_then(|()| writeln!(out)),
        };
        written.map_err(|e| e.to_string())?;
    }
    out.flush().map(|()| true).map_err(|e| e.to_string())
}

fn self_check(arguments: &[&str]) -> Result<bool, String> {
    let (numbers, fault) = match arguments {
        [numbers @ .., "--plant", name] => {
            let fault = Fault::named(name).ok_or_else(|| format!("{name} is no fault"))?;
            (numbers, Some(fault))
        }
        numbers => (numbers, None),
    };
    Ok(self_check::run(selection(numbers)?, fault))
}

fn selection(arguments: &[&str]) -> Result<Selection, String> {
    let (count, seed, only) = match arguments {
        [] => (DEFAULT_COUNT, 0, None),
        [count] => (number(count)?, 0, None),
        [count, seed] => (number(count)?, number(seed)?, None),
        [count, seed, name] => (number(count)?, number(seed)?, Some(family(name)?)),
        _ => return Err(USAGE.into()),
    };
    Ok(Selection { count, seed, only })
}

fn family(name: &str) -> Result<Family, String> {
    Family::named(name).ok_or_else(|| format!("{name} is no family"))
}

/// Compares the opening hours of random lists, if their library is linked.
fn compare_hours(arguments: &[&str]) -> Result<bool, String> {
    let (lists, seed) = match arguments {
        [] => (DEFAULT_LISTS, 0),
        [lists] => (number(lists)?, 0),
        [lists, seed] => (number(lists)?, number(seed)?),
        _ => return Err(USAGE.into()),
    };
    match foreign::hours() {
        Some(hours) => Ok(hours::compare(&hours, lists, seed)),
        None => {
            println!("hours: no libhours.a yet, nothing compared");
            Ok(true)
        }
    }
}

/// Checks the lines that expand the most and tries to beat them, if their library is linked.
fn compare_longest(arguments: &[&str]) -> Result<bool, String> {
    let (tries, seed) = match arguments {
        [] => (DEFAULT_TRIES, 0),
        [tries] => (number(tries)?, 0),
        [tries, seed] => (number(tries)?, number(seed)?),
        _ => return Err(USAGE.into()),
    };
    match foreign::longest() {
        Some(longest) => Ok(longest::compare(longest, tries, seed)),
        None => {
            println!("longest: no liblongest.a yet, nothing compared");
            Ok(true)
        }
    }
}

/// A batch of the texts in these files.
fn batch_call(steps: &str, cells: &str, files: &[&str]) -> Result<bool, String> {
    let texts: Result<Vec<Vec<u8>>, String> = files.iter().map(|file| read_file(file)).collect();
    print(batch::call(&texts?, number(steps)?, number(cells)? as usize).as_bytes())
}

/// Holds the stand-in for the port, with a fault or without, against the interpreter.
fn self_check_batches(arguments: &[&str]) -> Result<bool, String> {
    let (numbers, fault) = match arguments {
        [numbers @ .., "--plant", name] => {
            let fault = batch::Fault::named(name).ok_or_else(|| format!("{name} is no fault"))?;
            (numbers, Some(fault))
        }
        numbers => (numbers, None),
    };
    Ok(batch::self_check(batches(numbers)?, fault))
}

/// Holds the port's runner against the interpreter, if it is linked.
fn compare_batches(arguments: &[&str]) -> Result<bool, String> {
    let selection = batches(arguments)?;
    let Some(call) = foreign::batch() else {
        println!("batch: no librunner.a yet, nothing compared");
        return Ok(true);
    };
    Ok(batch::compare(call, selection))
}

fn batches(arguments: &[&str]) -> Result<batch::Selection, String> {
    let (numbers, name) = match arguments {
        [count, seed, name] => (&[*count, *seed][..], Some(*name)),
        numbers => (numbers, None),
    };
    let Selection { count, seed, .. } = selection(numbers)?;
    let named = |name| batch::Family::named(name).ok_or_else(|| format!("{name} is no family"));
    let only = name.map(named).transpose()?;
    Ok(batch::Selection { count, seed, only })
}

/// The list program: where `rt run` leaves it, or what the variable `PEVZONCS_LIST` names.
fn list_program() -> Option<PathBuf> {
    let program = std::env::var_os("PEVZONCS_LIST").map_or_else(
        || Path::new(env!("CARGO_MANIFEST_DIR")).join("../crates/list/out/list"),
        PathBuf::from,
    );
    program.is_file().then_some(program)
}

/// Compares what is linked or built; what is not there is said and is no failure.
fn compare(which: &[&str], arguments: &[&str]) -> Result<bool, String> {
    let selection = selection(arguments)?;
    let mut same = true;
    for what in which {
        let (missing, result) = match *what {
            "tokens" => (
                "liblexer.a",
                foreign::tokenize().map(|f| compare::compare_tokens(f, selection)),
            ),
            "read" => (
                "libreader.a",
                foreign::read().map(|f| compare::compare_read(f, selection)),
            ),
            "write" => (
                "libwriter.a",
                foreign::write().map(|f| compare::compare_write(f, selection)),
            ),
            "read-records" => (
                "libreading.a",
                foreign::read_records().map(|f| compare::compare_read(f, selection)),
            ),
            "write-records" => (
                "libwriting.a",
                foreign::write_records().map(|f| compare::compare_write(f, selection)),
            ),
            _ => (
                "list program",
                list_program().map(|p| compare::compare_list(&p, selection)),
            ),
        };
        match result {
            Some(held) => same &= held,
            None => println!("{what}: no {missing} yet, nothing compared"),
        }
    }
    Ok(same)
}
