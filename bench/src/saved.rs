//! Tables of ratios, read again from what was printed.

use crate::table::{RATIOS_HEADING, UNTIMED};

/// The ratios of a container, or what else a heading stands for.
pub struct Table {
    pub title: String,
    pub rows: Vec<Row>,
}

/// The sizes and ratios of a workload.
pub struct Row {
    pub name: String,
    pub ratios: Vec<(f64, f64)>,
}

/// Reads the tables of ratios in a text of Markdown, each named by the heading before it.
pub fn tables(text: &str) -> Vec<Table> {
    let mut tables: Vec<Table> = vec![];
    let mut title = "";
    let mut sizes: Option<Vec<f64>> = None;
    for line in text.lines() {
        if let Some(heading) = line.strip_prefix("### ") {
            title = heading;
        }
        let cells = cells(line);
        match (&sizes, &cells[..]) {
            (_, [RATIOS_HEADING, heads @ ..]) => {
                sizes = Some(heads.iter().map(|head| number(head)).collect());
                tables.push(Table {
                    title: String::from(title),
                    rows: vec![],
                });
            }
            (Some(sizes), [name, ratios @ ..]) if !name.starts_with('-') => {
                if let Some(table) = tables.last_mut() {
                    table.rows.push(row(name, sizes, ratios));
                }
            }
            (Some(_), []) => sizes = None,
            _ => {}
        }
    }
    tables
}

// What stands between the bars of a row, and nothing for another line.
fn cells(line: &str) -> Vec<&str> {
    let inner = line
        .strip_prefix('|')
        .and_then(|rest| rest.strip_suffix('|'));
    inner.map_or(vec![], |inner| inner.split('|').map(str::trim).collect())
}

fn row(name: &str, sizes: &[f64], ratios: &[&str]) -> Row {
    let timed = sizes
        .iter()
        .zip(ratios)
        .filter(|(_, cell)| **cell != UNTIMED);
    Row {
        name: String::from(name),
        ratios: timed.map(|(size, cell)| (*size, number(cell))).collect(),
    }
}

// The first number of a cell, be it bold or not.
fn number(cell: &str) -> f64 {
    let word = cell.split(' ').next().unwrap_or("");
    word.trim_matches('*')
        .parse()
        .unwrap_or_else(|_| panic!("a cell begins with a number: {cell}"))
}
