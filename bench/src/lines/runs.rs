//! Runs of both sides over the same lines, and their processor time.

use std::error::Error;
use std::fs::{self, File};
use std::path::Path;
use std::process::Command;

/// The seconds of processor time that each side took over a script.
pub struct Sample {
    pub rust: f64,
    pub rattle: f64,
}

impl Sample {
    /// The time of `rangerun` by that of the Rust crate's reader.
    pub fn ratio(&self) -> f64 {
        self.rattle / self.rust
    }
}

/// Runs the reader, which is `this` program, and `program` in turns over the lines, `times` times.
///
/// # Errors
///
/// A run failed, or the two printed different texts.
pub fn sample(
    this: &Path,
    program: &Path,
    kind: &str,
    lines: &str,
    times: usize,
) -> Result<Sample, Box<dyn Error>> {
    let held = std::env::temp_dir().join(format!("lines-{}", std::process::id()));
    fs::write(&held, lines)?;
    let mut sample = Sample {
        rust: 0.0,
        rattle: 0.0,
    };
    for _ in 0..times {
        let (rust, wanted) = run(Command::new(this).args(["read", kind]), &held)?;
        let (rattle, printed) = run(Command::new(program).arg(kind), &held)?;
        if printed != wanted {
            return Err(format!("{kind}: the two print different texts").into());
        }
        sample.rust += rust;
        sample.rattle += rattle;
    }
    fs::remove_file(&held)?;
    Ok(sample)
}

/// Runs a program over a file, and returns its processor time and what it printed.
fn run(command: &mut Command, input: &Path) -> Result<(f64, Vec<u8>), Box<dyn Error>> {
    let before = children_time();
    let ended = command.stdin(File::open(input)?).output()?;
    let time = children_time() - before;
    if !ended.status.success() {
        return Err(format!("{command:?} ended with {}", ended.status).into());
    }
    Ok((time, ended.stdout))
}

#[repr(C)]
#[derive(Clone, Copy, Default)]
struct Time {
    seconds: i64,
    microseconds: i64,
}

#[repr(C)]
#[derive(Default)]
struct Usage {
    user: Time,
    system: Time,
    others: [i64; 14],
}

/// `RUSAGE_CHILDREN` of Linux.
const CHILDREN: i32 = -1;

extern "C" {
    fn getrusage(who: i32, usage: *mut Usage) -> i32;
}

/// The seconds of processor time that the programs have had which this one started, and which have
/// ended.
fn children_time() -> f64 {
    let mut usage = Usage::default();
    // SAFETY: the call writes to the one struct that it is lent, whose layout is that of 64-bit
    // Linux.
    let status = unsafe { getrusage(CHILDREN, &mut usage) };
    assert_eq!(status, 0, "the processor time of programs that ended");
    [usage.user, usage.system]
        .iter()
        .map(|time| time.seconds as f64 + time.microseconds as f64 * 1e-6)
        .sum()
}
