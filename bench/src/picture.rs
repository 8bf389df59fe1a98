//! Pictures of the ratios over the sizes, both by their logarithms: a panel for each container, and in
//! it a line for each workload; or a panel for each workload, and in it a line for each map.

use crate::containers::{CHUNKED, HALF_OPEN, TREE, VECTOR_TARGET};
use crate::input::SIZES;
use crate::saved::{Row, Table};
use crate::workloads::{DISJOINT_INSERTS, ITERATION, LOOKUPS, OVERLAPS};

mod scale;

use scale::{Frame, Scale};

const PANEL_WIDTH: f64 = 640.0;

const PANEL_HEIGHT: f64 = 380.0;

/// What of a panel the lines have.
const LINES: Frame = Frame {
    left: 50.0,
    right: 410.0,
    top: 40.0,
    bottom: 340.0,
};

/// How many panels stand side by side.
const COLUMNS: usize = 2;

/// How far two names are apart.
const NAME_HEIGHT: f64 = 13.0;

const COLOURS: [&str; 11] = [
    "#1f77b4", "#d95f02", "#d62728", "#1b9e77", "#2ca02c", "#a6761d", "#7b4fb5", "#c7379b",
    "#8c564b", "#444444", "#17a2b8",
];

/// The ratios that are marked on the left of a panel, where they lie within. Below it are the sizes.
const RATIOS: [f64; 13] = [
    0.01, 0.02, 0.05, 0.1, 0.2, 0.5, 1.0, 2.0, 5.0, 10.0, 20.0, 50.0, 100.0,
];

/// Draws the containers' tables as an SVG. Their headings are the containers' names, in backticks.
pub fn containers(tables: &[Table]) -> String {
    let tables: Vec<&Table> = tables.iter().filter(|table| is_container(table)).collect();
    sheet(&tables)
}

/// Draws, as an SVG, what tells one map over half-open ranges from another: the work that they are
/// chosen by.
pub fn choice(tables: &[Table]) -> String {
    let maps = [HALF_OPEN.name, CHUNKED.name, TREE.name];
    let works = [DISJOINT_INSERTS, LOOKUPS, OVERLAPS, ITERATION];
    let panels = works.map(|work| beside(tables, work.name, &maps));
    sheet(&panels.each_ref())
}

// The rows of one workload, each named by its container.
fn beside(tables: &[Table], work: &str, containers: &[&str]) -> Table {
    let is_named = |table: &&Table| containers.contains(&plain(&table.title).as_str());
    let row = |table: &Table| {
        let row = table.rows.iter().find(|row| row.name == work)?;
        Some(Row {
            name: table.title.clone(),
            ratios: row.ratios.clone(),
        })
    };
    Table {
        title: String::from(work),
        rows: tables.iter().filter(is_named).filter_map(row).collect(),
    }
}

fn sheet(tables: &[&Table]) -> String {
    let names = names(tables);
    let scale = scale_of(tables);
    let panels = tables.iter().enumerate().map(|(at, table)| {
        let left = PANEL_WIDTH * (at % COLUMNS) as f64;
        let top = PANEL_HEIGHT * (at / COLUMNS) as f64;
        let panel = panel(table, &names, &scale);
        format!("<g transform=\"translate({left} {top})\">\n{panel}</g>\n")
    });
    let width = PANEL_WIDTH * COLUMNS as f64;
    let height = PANEL_HEIGHT * tables.len().div_ceil(COLUMNS) as f64;
    format!(
        "<svg xmlns=\"http://www.w3.org/2000/svg\" viewBox=\"0 0 {width} {height}\" \
         font-family=\"sans-serif\" font-size=\"11\">\n\
         <rect width=\"{width}\" height=\"{height}\" fill=\"white\"/>\n{}</svg>\n",
        panels.collect::<String>()
    )
}

fn is_container(table: &Table) -> bool {
    table.title.starts_with('`')
        && table.title.ends_with('`')
        && table.title.matches('`').count() == 2
}

// A tree's targets are others, and so are some of those in chunks, which docs/SPEED.md names.
fn has_vector_target(table: &Table) -> bool {
    is_container(table) && plain(&table.title) != TREE.name
}

// Each line's name once, so that it has one colour in all panels.
fn names<'a>(tables: &[&'a Table]) -> Vec<&'a str> {
    let mut names: Vec<&str> = vec![];
    for row in tables.iter().flat_map(|table| &table.rows) {
        if !names.contains(&row.name.as_str()) {
            names.push(&row.name);
        }
    }
    names
}

// One for all panels, so that they can be compared.
fn scale_of(tables: &[&Table]) -> Scale {
    let rows = || tables.iter().flat_map(|table| &table.rows);
    let points = || rows().flat_map(|row| &row.ratios).copied();
    Scale {
        sizes: scale::around(points().map(|point| point.0)),
        ratios: scale::around(points().map(|point| point.1).chain([VECTOR_TARGET, 1.0])),
        frame: LINES,
    }
}

fn panel(table: &Table, names: &[&str], scale: &Scale) -> String {
    let mut drawn = format!(
        "<text x=\"{}\" y=\"22\" font-size=\"15\" font-weight=\"bold\">{}</text>\n",
        LINES.left,
        plain(&table.title)
    );
    drawn += &sizes_below(scale);
    drawn += &ratios_on_the_left(scale);
    drawn += &level(1.0, r#"stroke-width="2""#, scale);
    if has_vector_target(table) {
        let dashed = r#"stroke-width="1" stroke-dasharray="5 3""#;
        drawn += &level(VECTOR_TARGET, dashed, scale);
    }
    let colour = |row: &Row| {
        let place = names.iter().position(|name| *name == row.name);
        COLOURS[place.unwrap_or(0) % COLOURS.len()]
    };
    for row in &table.rows {
        drawn += &line(row, colour(row), scale);
    }
    drawn + &names_of_lines(&table.rows, colour, scale)
}

// The names of the lines, each where its line ends and of its colour.
fn names_of_lines<'a>(rows: &[Row], colour: impl Fn(&Row) -> &'a str, scale: &Scale) -> String {
    let name = |(row, y): (&Row, f64)| {
        format!(
            "<text x=\"{}\" y=\"{:.1}\" fill=\"{}\">{}</text>\n",
            LINES.right + 8.0,
            y + 4.0,
            colour(row),
            plain(&row.name)
        )
    };
    rows.iter()
        .zip(name_heights(rows, scale))
        .map(name)
        .collect()
}

// The marks below, each with a thin line through the panel.
fn sizes_below(scale: &Scale) -> String {
    let mut drawn = String::new();
    for size in SIZES.map(|size| size as f64) {
        if scale.sizes.has(size) {
            let x = scale.x(size);
            drawn += &thin_line((x, LINES.top), (x, LINES.bottom));
            drawn += &mark((x, LINES.bottom + 16.0), "middle", size);
        }
    }
    drawn
}

// The marks on the left, each with a thin line through the panel.
fn ratios_on_the_left(scale: &Scale) -> String {
    let mut drawn = String::new();
    for ratio in RATIOS.into_iter().filter(|ratio| scale.ratios.has(*ratio)) {
        let y = scale.y(ratio);
        drawn += &thin_line((LINES.left, y), (LINES.right, y));
        drawn += &mark((LINES.left - 6.0, y + 4.0), "end", ratio);
    }
    drawn
}

fn thin_line(from: (f64, f64), to: (f64, f64)) -> String {
    format!(
        "<path d=\"M{:.1} {:.1}L{:.1} {:.1}\" stroke=\"#dddddd\"/>\n",
        from.0, from.1, to.0, to.1
    )
}

fn mark((x, y): (f64, f64), anchor: &str, number: f64) -> String {
    format!("<text x=\"{x:.1}\" y=\"{y:.1}\" text-anchor=\"{anchor}\">{number}</text>\n")
}

// A black line at a ratio, with the attributes of its stroke.
fn level(ratio: f64, stroke: &str, scale: &Scale) -> String {
    let y = scale.y(ratio);
    format!(
        "<path d=\"M{} {y:.1}H{}\" stroke=\"black\" {stroke}/>\n",
        LINES.left, LINES.right
    )
}

fn line(row: &Row, colour: &str, scale: &Scale) -> String {
    let place =
        |(size, ratio): &(f64, f64)| format!("{:.1},{:.1}", scale.x(*size), scale.y(*ratio));
    let places: Vec<String> = row.ratios.iter().map(place).collect();
    format!(
        "<polyline points=\"{}\" fill=\"none\" stroke=\"{colour}\" stroke-width=\"1.8\"/>\n",
        places.join(" ")
    )
}

// Where the names stand: at the ends of their lines, but for what keeps them apart.
fn name_heights(rows: &[Row], scale: &Scale) -> Vec<f64> {
    let end = |row: &Row| {
        row.ratios
            .last()
            .map_or(LINES.bottom, |last| scale.y(last.1))
    };
    let mut heights: Vec<f64> = rows.iter().map(end).collect();
    let mut order: Vec<usize> = (0..rows.len()).collect();
    order.sort_by(|one, other| heights[*one].total_cmp(&heights[*other]));
    keep_apart(&mut heights, order.iter(), LINES.top, f64::max, NAME_HEIGHT);
    keep_apart(
        &mut heights,
        order.iter().rev(),
        LINES.bottom,
        f64::min,
        -NAME_HEIGHT,
    );
    heights
}

// Moves each of the heights, in the order, where it isn't a step behind the one before.
fn keep_apart<'a>(
    heights: &mut [f64],
    order: impl Iterator<Item = &'a usize>,
    first: f64,
    further: fn(f64, f64) -> f64,
    step: f64,
) {
    let mut next = first;
    for at in order {
        heights[*at] = further(heights[*at], next);
        next = heights[*at] + step;
    }
}

// Without the marks of Markdown, and safe in XML.
fn plain(text: &str) -> String {
    text.replace('`', "")
        .replace('&', "&amp;")
        .replace('<', "&lt;")
}
