//! Tables of what was measured, in Markdown.

use crate::containers::Container;
use crate::measure::Measured;
use crate::workloads::Workload;

/// How the column of names is headed in a table of ratios, by which a saved one is found again.
pub const RATIOS_HEADING: &str = "Ratio of the times";

/// What stands where nothing was timed.
pub const UNTIMED: &str = "-";

/// A workload's cells, one for each size, where it was timed.
pub struct Row {
    name: String,
    cells: Vec<Option<Cell>>,
}

struct Cell {
    measured: Measured,
    target: Option<f64>,
}

/// Times a workload at each size.
pub fn row<S>(container: &Container<S>, workload: &Workload<S>, sizes: &[usize]) -> Row {
    eprintln!("{}: {}", container.name, workload.name);
    let cell = |&size: &usize| {
        container.is_timed(workload, size).then(|| Cell {
            measured: container.measure(workload, size),
            target: (container.target)(workload.kind, size),
        })
    };
    Row {
        name: String::from(workload.name),
        cells: sizes.iter().map(cell).collect(),
    }
}

impl Row {
    /// The same row, with the container's name behind the workload's.
    pub fn named_with(self, container: &str) -> Row {
        Row {
            name: format!("{}, `{container}`", self.name),
            ..self
        }
    }
}

/// Prints the ratios.
pub fn print_ratios(sizes: &[usize], rows: &[Row]) {
    print(RATIOS_HEADING, sizes, rows, ratio);
}

/// Prints the two times of which each ratio is one.
pub fn print_times(sizes: &[usize], rows: &[Row]) {
    print(
        "Nanoseconds of processor time an operation: Rust crate / this library",
        sizes,
        rows,
        times,
    );
}

fn print(title: &str, sizes: &[usize], rows: &[Row], text: fn(&Cell) -> String) {
    let heads: Vec<String> = sizes.iter().map(ToString::to_string).collect();
    println!("| {title} | {} |", heads.join(" | "));
    println!("|---|{}", "---|".repeat(sizes.len()));
    for row in rows {
        let told = |cell: &Option<Cell>| cell.as_ref().map_or(String::from(UNTIMED), text);
        let cells: Vec<String> = row.cells.iter().map(told).collect();
        println!("| {} | {} |", row.name, cells.join(" | "));
    }
}

// Bold where it misses its target.
fn ratio(cell: &Cell) -> String {
    let Measured {
        ratio,
        first_quartile,
        last_quartile,
        ..
    } = cell.measured;
    let misses = cell.target.is_some_and(|target| target < ratio);
    let mark = if misses { "**" } else { "" };
    let [ratio, first, last] = [ratio, first_quartile, last_quartile].map(rounded);
    format!("{mark}{ratio}{mark} ({first} to {last})")
}

// To about three digits.
fn rounded(ratio: f64) -> String {
    let digits = match ratio {
        ..1.0 => 3,
        ..10.0 => 2,
        _ => 1,
    };
    format!("{ratio:.digits$}")
}

fn times(cell: &Cell) -> String {
    let Measured { rust, rattle, .. } = cell.measured;
    format!("{rust:.3} / {rattle:.3}")
}
