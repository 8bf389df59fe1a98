//! What is taken of iterators of words.

use crate::fault::{same, Fault};

/// What a script takes from both ends: `f` the next item, `b` the next from the back, `#` the hint of
/// how many are left. An empty script takes all.
pub fn taken(
    items: &mut dyn DoubleEndedIterator<Item = String>,
    script: &str,
) -> Result<String, Fault> {
    if script.is_empty() {
        return Ok(joined(items));
    }
    let mut answers = Vec::new();
    for letter in script.chars() {
        answers.push(match letter {
            'f' => or_dash(items.next()),
            'b' => or_dash(items.next_back()),
            '#' => hint(items.size_hint()),
            _ => return Err(Fault::Unread(script.to_owned())),
        });
    }
    Ok(answers.join(", "))
}

/// What a script takes of items that are made when they are asked for: `n` and `t` the next, `N` and
/// `T` all that are left, `#` the hint. The Rust crate has no `try_next`, so that the letters mean the
/// same. An empty script takes all.
pub fn made(items: &mut dyn Iterator<Item = String>, script: &str) -> Result<String, Fault> {
    if script.is_empty() {
        return Ok(joined(items));
    }
    let mut answers = Vec::new();
    for letter in script.chars() {
        match letter {
            'n' | 't' => answers.push(or_dash(items.next())),
            '#' => answers.push(hint(items.size_hint())),
            'N' | 'T' => {
                answers.extend(&mut *items);
                same(items.next(), None, "an end and `next` behind it")?;
            }
            _ => return Err(Fault::Unread(script.to_owned())),
        }
    }
    Ok(answers.join(", "))
}

/// All items.
pub fn joined(items: &mut dyn Iterator<Item = String>) -> String {
    items.collect::<Vec<_>>().join(", ")
}

/// The words of an item, or a dash where there is none.
pub fn or_dash(item: Option<String>) -> String {
    item.unwrap_or_else(|| "-".to_owned())
}

// The least and the most items that are left; a question mark where nothing is said of the most.
fn hint(left: (usize, Option<usize>)) -> String {
    match left {
        (least, Some(most)) => format!("{least}/{most}"),
        (least, None) => format!("{least}/?"),
    }
}
