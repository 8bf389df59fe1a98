//! What a row asks a container, and what it answers.

use crate::compared::{are_ascending, are_hashed};
use crate::container::{check_counts, Container, Lent, Operators, OwnSteps, Pair, Set};
use crate::fault::{same, Fault};
use crate::items::{joined, made, or_dash, taken};
use crate::pieces::{covers, in_one, is_disjoint, is_subset, without};
use crate::ranges::{first_word, pair_words, pairs, query, range_words};
use crate::word::Word;

/// What stands between the pairs of a question's list.
const COMMA: &str = ", ";

/// A question, in its parts.
pub struct Question<'t> {
    /// The word that it begins with.
    pub name: &'t str,
    /// What that is given.
    pub operand: &'t str,
    /// What stands behind the first semicolon.
    pub rest: &'t str,
}

impl<'t> Question<'t> {
    /// The parts of a text.
    pub fn of(text: &'t str) -> Question<'t> {
        let (asked, rest) = text.split_once("; ").unwrap_or((text, ""));
        let (name, operand) = first_word(asked);
        Question {
            name,
            operand,
            rest,
        }
    }
}

/// The answer to a question that every container can be asked.
pub fn ask<C: Container>(container: &C, question: &Question) -> Result<String, Fault> {
    match question.name {
        "holds" => {
            check_counts(container)?;
            Ok(joined(&mut container.pairs().map(lent::<C>)))
        }
        "at" => at(container, question.operand),
        "overlapping" => overlapping(container, question),
        "overlaps" => Ok(container.meets(&query(question.operand)?).to_string()),
        "covers" => Ok(covers(container, &query(question.operand)?).to_string()),
        "gaps" => {
            let outer = query(question.operand)?;
            let mut gaps = container.free(&outer).map(own_range::<C>);
            made(&mut gaps, question.rest)
        }
        "iter" => taken(&mut container.pairs().map(lent::<C>), question.operand),
        "equals" => {
            let other = C::filled(pairs(question.operand, COMMA)?);
            same(*container == other, other == *container, "both ways of ==")?;
            Ok((*container == other).to_string())
        }
        "len" => Ok(format!("{} {}", container.count(), container.has_none())),
        "ends" => Ok(ends(container)),
        "ascending" => Ok(are_ascending(&listed::<C>(question)?).to_string()),
        "hashed" => Ok(are_hashed(&listed::<C>(question)?).to_string()),
        name => Err(Fault::Unknown(name.to_owned())),
    }
}

/// The answer to a question that a container can be asked whose keys have steps of their own, or none.
pub fn ask_by_own_steps<C: OwnSteps>(container: &C, question: &Question) -> Result<String, Fault> {
    match question.name {
        "into_iter" => {
            let pairs = container.clone().hand_over();
            taken(&mut pairs.map(own::<C>), question.operand)
        }
        "debug" => Ok(format!("{container:?}")),
        "lines" => {
            let text = format!("{container:#?}");
            Ok(text
                .lines()
                .map(|line| line.trim().to_owned() + "/")
                .collect())
        }
        _ => ask(container, question),
    }
}

/// The answer to a question that every set can be asked.
pub fn ask_set<C: Set>(set: &C, question: &Question) -> Result<String, Fault> {
    match ask_of_other(set, question)? {
        Some(answer) => Ok(answer),
        None => ask(set, question),
    }
}

/// The answer to a question that a set can be asked whose keys have steps of their own, or none.
pub fn ask_set_by_own_steps<C: OwnSteps + Operators>(
    set: &C,
    question: &Question,
) -> Result<String, Fault> {
    match ask_of_other(set, question)? {
        Some(answer) => Ok(answer),
        None => ask_by_own_steps(set, question),
    }
}

// The answer to a question of a set and another one, or nothing where the question is none.
fn ask_of_other<C: Set>(set: &C, question: &Question) -> Result<Option<String>, Fault> {
    let other = || Ok(C::filled(pairs(question.operand, COMMA)?));
    Ok(Some(match question.name {
        "union" | "intersection" => together(set, question)?,
        "difference" => unhinted(&without(set, &other()?), question.rest)?,
        "symmetric_difference" => unhinted(&in_one(set, &other()?), question.rest)?,
        "subset" => is_subset(set, &other()?).to_string(),
        "superset" => is_subset(&other()?, set).to_string(),
        "disjoint" => is_disjoint(set, &other()?).to_string(),
        _ => return Ok(None),
    }))
}

// What a script takes of the ranges of a set, of which isn't told beforehand how many they are.
fn unhinted<C: Set>(set: &C, script: &str) -> Result<String, Fault> {
    let mut words = set.ranges().map(range_words);
    made(&mut std::iter::from_fn(|| words.next()), script)
}

// The pair that holds a key, or nothing.
fn at<C: Container>(container: &C, key: &str) -> Result<String, Fault> {
    let key = Word::read(key)?;
    container.check_lookups(&key)?;
    Ok(container.find(&key).map(lent::<C>).unwrap_or_default())
}

// What a script takes of the pairs that overlap a query.
fn overlapping<C: Container>(container: &C, question: &Question) -> Result<String, Fault> {
    let query = query(question.operand)?;
    let is_met = container.meet(&query).next().is_some();
    same(container.meets(&query), is_met, "overlaps and overlapping")?;
    let mut pairs = container.meet(&query).map(lent::<C>);
    taken(&mut pairs, question.rest)
}

// The first pair and the last.
fn ends<C: Container>(container: &C) -> String {
    let first = or_dash(container.first_pair().map(lent::<C>));
    let last = or_dash(container.last_pair().map(lent::<C>));
    format!("{first}, {last}")
}

// What a script takes of a union or an intersection. An `f` or a `b` before its other letters takes the
// first or the last range of the left set's iterator, before the two are put together.
fn together<C: Set>(set: &C, question: &Question) -> Result<String, Fault> {
    let other = C::filled(pairs(question.operand, COMMA)?);
    let is_union = question.name == "union";
    let words = own_range::<C>;
    let script = question.rest.trim_start_matches(['f', 'b']);
    let (from_left, _) = question.rest.split_at(question.rest.len() - script.len());
    if from_left.is_empty() {
        return if is_union {
            made(&mut set.union_with(&other).map(words), script)
        } else {
            made(&mut set.intersection_with(&other).map(words), script)
        };
    }
    let mut left = set.ranges();
    let first = taken(&mut left.by_ref().map(range_words), from_left)?;
    let others = if is_union {
        made(&mut C::union_of(left, other.ranges()).map(words), script)?
    } else {
        made(
            &mut C::intersection_of(left, other.ranges()).map(words),
            script,
        )?
    };
    let parts = [first, others].into_iter();
    Ok(joined(&mut parts.filter(|part| !part.is_empty())))
}

// The containers of lists, the first of which is the operand and the others lie behind semicolons.
fn listed<C: Container>(question: &Question) -> Result<Vec<C>, Fault> {
    let lists = std::iter::once(question.operand).chain(question.rest.split("; "));
    lists
        .map(|list| Ok(C::filled(pairs(list, COMMA)?)))
        .collect()
}

fn lent<C: Container>(pair: Lent<'_, C>) -> String {
    pair_words(pair.0, pair.1)
}

fn own<C: Container>(pair: Pair<C>) -> String {
    pair_words(&pair.0, &pair.1)
}

fn own_range<C: Container>(range: C::Range) -> String {
    range_words(&range)
}
