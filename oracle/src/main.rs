//! The crate's own code as an oracle: it answers a corpus, makes corpora and compares answers. See oracle/README.md.

mod compare;
mod corpus;
mod generate;
mod orders;
mod outcomes;
mod packet;
mod payload;
mod random;
mod samples;
mod strict;
mod tls_utils;

/// The stand-in for the crate's module `nts`. What looks into the crate's values is a child of it.
#[allow(dead_code, private_interfaces)]
mod nts {
    use crate::tls_utils;

    include!(concat!(env!("OUT_DIR"), "/nts.rs"));

    pub mod answer;
    pub mod choosing;
    mod feeding;
    pub mod findings;
    pub mod lines;
    pub mod offered;
    pub mod pieces;
    pub mod plans;
    mod poll;
    pub mod reading;
    pub mod replies;
    mod requests;
    pub mod sending;
    pub mod smallest;
    pub mod trays;
    mod whole;
    mod writing;
}

use std::io::{self, BufWriter, Write};
use std::process::ExitCode;

const USAGE: &str = "usage:
  oracle gen NAME SEED [COUNT]               writes the corpus NAME; COUNT counts for random ones alone
  oracle answer                              answers the corpus on standard input
  oracle compare NAME CORPUS CRATE PROBE TALLY
                                             compares two files of answers and adds to the file TALLY
  oracle total TALLY [any]                   sums up; `any` asks for no least number of cases an outcome
  oracle orders CORPUS CRATE PROBE [failed]  judges two files of answers to the corpus orders; `failed`: the probe did
  oracle pick CORPUS INDEX                   writes that case of a corpus alone
  oracle smallest                            of the replies on standard input: the shortest for each difference from the crate";

fn main() -> ExitCode {
    let args: Vec<String> = std::env::args().skip(1).collect();
    let args: Vec<&str> = args.iter().map(String::as_str).collect();
    match run(&args) {
        Ok(true) => ExitCode::SUCCESS,
        Ok(false) => ExitCode::FAILURE,
        Err(error) => {
            eprintln!("oracle: {error}");
            ExitCode::FAILURE
        }
    }
}

/// Does what the words ask; false where something was found wrong and has been told.
fn run(args: &[&str]) -> io::Result<bool> {
    let mut out = BufWriter::with_capacity(1 << 20, io::stdout().lock());
    let good = match args {
        ["gen", name, seed] => generate::corpus(name, number(seed)?, None, &mut out)?,
        ["gen", name, seed, count] => generate::corpus(name, number(seed)?, Some(number(count)?), &mut out)?,
        ["answer"] => nts::answer::corpus(io::stdin().lock(), &mut out)?,
        ["compare", name, corpus, crate_lines, probe_lines, tally] => {
            compare::compare(name, corpus, crate_lines, probe_lines, tally, &mut out)?
        }
        ["total", tally] => compare::total(tally, true, &mut out)?,
        ["total", tally, "any"] => compare::total(tally, false, &mut out)?,
        ["orders", corpus, crates, probes] => orders::judge(corpus, crates, probes, false, &mut out)?,
        ["orders", corpus, crates, probes, "failed"] => orders::judge(corpus, crates, probes, true, &mut out)?,
        ["smallest"] => nts::smallest::corpus(io::stdin().lock(), &mut out)?,
        ["pick", corpus, index] => compare::pick(corpus, number(index)?, &mut out)?,
        _ => {
            eprintln!("{USAGE}");
            false
        }
    };
    out.flush()?;
    Ok(good)
}

fn number(word: &str) -> io::Result<u64> {
    word.parse().map_err(|_| io::Error::other(format!("{word} is not a number")))
}
