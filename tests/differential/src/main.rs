//! Differential tests and a benchmark of the trial driver, against an implementation of documents 01 and 02 (a) to (m) of its own.

mod allowance_check;
mod allowance_gen;
mod allowances;
mod audit_check;
mod audit_gen;
mod audits;
mod aut;
mod aut_check;
mod aut_gen;
mod bench;
mod branch_check;
mod branch_gen;
mod branches;
mod closest;
mod closest_check;
mod closest_gen;
mod compare;
mod gen;
mod line_check;
mod line_gen;
mod lines;
mod oracle;
mod pattern_check;
mod pattern_gen;
mod patterns;
mod protocol;
mod recording_check;
mod recording_gen;
mod recordings;
mod report_check;
mod report_gen;
mod reports;

use std::io::{Read, Write};

const USAGE: &str = "usage:
  differential vectors DIR                  stored requests of DIR (NAME.stdin, NAME.stdout) against the oracle
  differential selfcheck [--seed N] [--count N]
                                            the oracle's query, its translated patterns, its reports and its shortest
                                            beginnings against its own Table 1; its bodies of lines against what the lines
                                            say of actions; its plans of .aut texts and its sheets with a branch against
                                            second readings; its audits against the solutions and a second reading;
                                            its allowances against a queue of benches and its own Table 1;
                                            its closest states against ways, single queries and its own Table 1
  differential compare TRIALS [--seed N] [--count N] [--requests 1,2,3,4,5,6,7,8,9,10,11,12,13,14,15,16,17] [--no-shrink]
                                            made requests, the trial driver against the oracle
  differential bench TRIALS [--requests 1,2,3,4,5,6,7,8,9,10,11,12,13,14,15,16,17] [--out DIR]
                                            instructions and time, the trial driver against the oracle
  differential serve                        answers requests on standard input, as the trial driver does";

fn option(args: &[String], name: &str) -> Option<String> {
    args.iter().position(|a| a == name).and_then(|i| args.get(i + 1)).cloned()
}

fn number(args: &[String], name: &str) -> Option<u64> {
    option(args, name).map(|v| v.parse().unwrap_or_else(|_| panic!("{name}: not a number: {v}")))
}

fn requests(args: &[String]) -> Vec<u8> {
    option(args, "--requests")
        .unwrap_or_else(|| "1,2,3,4,5,6,7,8,9,10,11,12,13,14,15,16,17".into())
        .split(',')
        .map(|v| v.parse().ok().filter(|n| (1..=17).contains(n)).unwrap_or_else(|| panic!("--requests: {v}")))
        .collect()
}

fn serve() -> i32 {
    let mut input = Vec::new();
    if std::io::stdin().lock().read_to_end(&mut input).is_err() {
        return 1;
    }
    // room from the start: a buffer that grows is moved now and then, which a benchmark would count for some calls and not for others
    let mut out = Vec::with_capacity(8 << 20);
    protocol::answer_all(&input, &mut out);
    std::io::stdout().lock().write_all(&out).map_or(1, |_| 0)
}

fn run(args: Vec<String>) -> i32 {
    let operand = args.get(1).filter(|a| !a.starts_with("--")).cloned();
    match (args.first().map(String::as_str), operand) {
        (Some("serve"), None) => serve(),
        (Some("vectors"), Some(dir)) => compare::vectors(&dir),
        (Some("selfcheck"), None) => {
            let seed = number(&args, "--seed").unwrap_or_else(compare::clock);
            let count = number(&args, "--count").unwrap_or(5000);
            // each with how many times over
            let checks: [(fn(u64, u64) -> i32, u64); 10] = [
                (compare::selfcheck, 1),
                (pattern_check::selfcheck, 4),
                (line_check::selfcheck, 20),
                (report_check::selfcheck, 1),
                (aut_check::selfcheck, 1),
                (branch_check::selfcheck, 1),
                (recording_check::selfcheck, 1),
                (audit_check::selfcheck, 1),
                (allowance_check::selfcheck, 1),
                (closest_check::selfcheck, 1),
            ];
            checks.iter().map(|(check, times)| check(seed, times * count)).find(|&code| code != 0).unwrap_or(0)
        }
        (Some("compare"), Some(trials)) => compare::compare(
            &trials,
            number(&args, "--seed").unwrap_or_else(compare::clock),
            number(&args, "--count").unwrap_or(20_000),
            &requests(&args),
            !args.iter().any(|a| a == "--no-shrink"),
        ),
        (Some("bench"), Some(trials)) => {
            bench::bench(&trials, &requests(&args), &option(&args, "--out").unwrap_or_else(|| "../../docs".into()))
        }
        _ => {
            eprintln!("{USAGE}");
            2
        }
    }
}

/// What checks found, each with what was tried; 1 where one of them failed.
fn tell<A: std::fmt::Display>(checks: impl IntoIterator<Item = (String, Result<A, String>)>) -> i32 {
    for (what, found) in checks {
        match found {
            Ok(agreed) => println!("{what}: {agreed}"),
            Err(e) => {
                println!("{e}");
                return 1;
            }
        }
    }
    0
}

fn main() {
    let args: Vec<String> = std::env::args().skip(1).collect();
    // a chain of cells can be as long as the table, so the query needs a deep stack
    let worker = std::thread::Builder::new().stack_size(256 << 20).spawn(move || run(args));
    let code = worker.expect("a thread").join().unwrap_or(101);
    std::process::exit(code);
}
