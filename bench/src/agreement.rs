//! Whether two runs agree.

use crate::saved::Table;

/// By how much the ratios of two runs may differ, in parts of the smaller one.
const TENTH: f64 = 0.1;

/// Prints each ratio that differs by more than a tenth between two runs, and how many do; and how many
/// stand in one of the two alone.
pub fn print_differences(first: &[Table], second: &[Table]) {
    let (first, second) = (ratios(first), ratios(second));
    let mut compared = 0;
    let mut different = 0;
    for (place, before) in &first {
        let Some((_, after)) = second.iter().find(|(other, _)| other == place) else {
            continue;
        };
        compared += 1;
        if !agree(*before, *after) {
            different += 1;
            println!("{place}: {before} and {after}");
        }
    }
    println!("{different} of {compared} ratios differ by more than a tenth.");
    println!(
        "{} stand in the first run alone, {} in the second.",
        alone(&first, &second),
        alone(&second, &first)
    );
}

// How many ratios of one run stand at a place that the other lacks.
fn alone(one: &[(String, f64)], other: &[(String, f64)]) -> usize {
    let is_alone = |(place, _): &&(String, f64)| !other.iter().any(|(at, _)| at == place);
    one.iter().filter(is_alone).count()
}

// Each ratio, behind the words that tell where it stands.
fn ratios(tables: &[Table]) -> Vec<(String, f64)> {
    let mut all = vec![];
    for table in tables {
        for row in &table.rows {
            for (size, ratio) in &row.ratios {
                all.push((format!("{}, {}, {size}", table.title, row.name), *ratio));
            }
        }
    }
    all
}

fn agree(one: f64, other: f64) -> bool {
    (one - other).abs() <= TENTH * one.min(other)
}
