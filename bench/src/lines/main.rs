//! Times the program `rangerun` beside a reader of the same lines over the Rust crate.
//!
//! `lines PROGRAM [RUNS]` runs both over each kind of container and each input, in turns, sees that
//! they print the same, and prints a table of the processor time of the median runs. `lines read
//! KIND` is that reader.

#[allow(dead_code)]
#[path = "../input.rs"]
mod input;
mod reader;
mod runs;
mod scripts;

use runs::Sample;
use scripts::SCRIPTS;
use std::env;
use std::error::Error;
use std::path::Path;

const KINDS: [&str; 4] = ["map", "imap", "set", "iset"];

fn main() -> Result<(), Box<dyn Error>> {
    let words: Vec<String> = env::args().skip(1).collect();
    match words.iter().map(String::as_str).collect::<Vec<_>>()[..] {
        ["read", kind] => reader::read(kind),
        [program] => compare(Path::new(program), 5),
        [program, runs] => compare(Path::new(program), runs.parse()?),
        _ => Err("lines PROGRAM [RUNS], or lines read KIND".into()),
    }
}

/// Prints the table of both sides' times.
fn compare(program: &Path, runs: usize) -> Result<(), Box<dyn Error>> {
    println!("| Lines | Kind | Ratio | Rust crate, ms | `rangerun`, ms |");
    println!("|---|---|---|---|---|");
    let this = env::current_exe()?;
    for script in SCRIPTS {
        for kind in KINDS {
            let lines = (script.lines)(kind.ends_with("map"));
            let mut samples: Vec<Sample> = (0..runs)
                .map(|_| runs::sample(&this, program, kind, &lines, script.times))
                .collect::<Result<_, _>>()?;
            samples.sort_by(|left, right| left.ratio().total_cmp(&right.ratio()));
            let middle = &samples[runs / 2];
            println!(
                "| {} | `{kind}` | {:.2} | {:.1} | {:.1} |",
                script.name,
                middle.ratio(),
                middle.rust * 1e3,
                middle.rattle * 1e3,
            );
        }
    }
    Ok(())
}
