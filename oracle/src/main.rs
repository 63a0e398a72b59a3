//! The judge: the published Rust, asked by cases that are read and written as bytes.

mod attributes;
mod by_01;
mod case;
mod cases;
mod check;
mod format;
mod judge;
mod lanes;
mod random;
mod report;
mod scope;
mod sheet;
mod show;
mod smaller;
mod stops;
#[cfg(test)]
mod tests;
mod trials;
mod widths;

use case::Case;
use cases::Part;
use format::Judged;
use std::io::{Read, Write};
use std::process::ExitCode;

const USAGE: &str =
    "usage: oracle list PART | fresh PART COUNT SEED PREFIX | check | pick K | smaller | show | sheets | lanes | report
PART is marks, charts, attributes or reports; check, pick, smaller and show read a list from standard input, report a flow file.
fresh writes PREFIX0, PREFIX1, ..";

fn main() -> ExitCode {
    let arguments: Vec<String> = std::env::args().skip(1).collect();
    let words: Vec<&str> = arguments.iter().map(String::as_str).collect();
    match run(&words) {
        Ok(code) => code,
        Err(why) => {
            eprintln!("{why}");
            ExitCode::from(2)
        }
    }
}

fn run(words: &[&str]) -> Result<ExitCode, String> {
    match words {
        ["list", part] => put_whole(cases::list(part_named(part)?)),
        ["fresh", part, count, seed, prefix] => {
            let cases = cases::fresh(part_named(part)?, number(count)? as usize, number(seed)?);
            put_files(cases, prefix)
        }
        ["check"] => check_list(&get_list()?),
        ["pick", k] => pick(get_list()?, number(k)? as usize),
        ["smaller"] => {
            let cases = get_list()?.iter().flat_map(|(case, _)| smaller::of(case)).collect();
            // The boldest that fit into one list; the others are seldom wanted.
            put(&format::write(&judged(cases))[0])
        }
        ["show"] => {
            for (case, _) in get_list()? {
                println!("{}", show::case(&case, usize::MAX));
            }
            Ok(ExitCode::SUCCESS)
        }
        ["report"] => put(&report::text(&get_bytes()?)),
        ["sheets"] => say(trials::line()),
        ["lanes"] => say(lanes::line()),
        _ => Err(USAGE.to_string()),
    }
}

fn say(line: String) -> Result<ExitCode, String> {
    println!("{line}");
    Ok(ExitCode::SUCCESS)
}

fn part_named(name: &str) -> Result<Part, String> {
    Part::named(name).ok_or(format!("no part is called {name}"))
}

fn number(word: &str) -> Result<u64, String> {
    word.parse().map_err(|_| format!("{word} is no number"))
}

fn get_bytes() -> Result<Vec<u8>, String> {
    let mut bytes = Vec::new();
    std::io::stdin().read_to_end(&mut bytes).map_err(|e| e.to_string())?;
    Ok(bytes)
}

fn get_list() -> Result<Vec<Judged>, String> {
    format::read(&get_bytes()?).map_err(|fault| format!("no list: at byte {}, {}", fault.at, fault.why))
}

/// The cases with the Rust's answers.
fn judged(cases: Vec<Case>) -> Vec<Judged> {
    let one = |case: Case| {
        let answer = judge::answer(&case);
        (case, answer)
    };
    cases.into_iter().map(one).collect()
}

fn put_whole(cases: Vec<Case>) -> Result<ExitCode, String> {
    match &format::write(&judged(cases))[..] {
        [list] => put(list),
        lists => Err(format!("the cases fill {} lists, not one", lists.len())),
    }
}

fn put_files(cases: Vec<Case>, prefix: &str) -> Result<ExitCode, String> {
    for (k, list) in format::write(&judged(cases)).iter().enumerate() {
        std::fs::write(format!("{prefix}{k}"), list).map_err(|e| e.to_string())?;
    }
    Ok(ExitCode::SUCCESS)
}

fn pick(mut list: Vec<Judged>, k: usize) -> Result<ExitCode, String> {
    if k >= list.len() {
        return Err(format!("there is no case {k}"));
    }
    put(&format::write(&[list.swap_remove(k)])[0])
}

fn put(bytes: &[u8]) -> Result<ExitCode, String> {
    std::io::stdout().write_all(bytes).map_err(|e| e.to_string())?;
    Ok(ExitCode::SUCCESS)
}

/// Prints each disagreement, and last 'N cases, D differ'.
fn check_list(list: &[Judged]) -> Result<ExitCode, String> {
    let found = check::disagreements(list);
    for line in &found {
        println!("{line}");
    }
    println!("{} cases, {} differ", list.len(), found.len());
    Ok(if found.is_empty() { ExitCode::SUCCESS } else { ExitCode::from(1) })
}
