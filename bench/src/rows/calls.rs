//! The calls that a row makes on a container.

use crate::container::{Container, Operators, OwnSteps};
use crate::fault::{same, Fault};
use crate::pieces::{in_one, without};
use crate::ranges::{first_word, pair, pairs, range};

/// What stands between the pairs of a call's list.
const PLUS: &str = " + ";

/// Makes a call that every container has.
pub fn make<C: Container>(container: &mut C, call: &str) -> Result<(), Fault> {
    let (name, operand) = first_word(call);
    match name {
        "insert" => {
            let (range, value) = pair(operand)?;
            container.put(range, value);
        }
        "many" => insert_many(container, operand)?,
        "remove" => container.cut(range(operand)?),
        "clear" => container.forget(),
        "clone" => {
            let copy = container.clone();
            same(&copy, &*container, "a clone and its original")?;
            *container = copy;
        }
        _ => return Err(Fault::Unknown(name.to_owned())),
    }
    Ok(())
}

// Inserts so many ranges, with gaps between them.
fn insert_many<C: Container>(container: &mut C, operand: &str) -> Result<(), Fault> {
    let (count, item) = first_word(operand);
    let (dots, value) = first_word(item);
    let count: u32 = count.parse().map_err(|_| Fault::Unread(operand.to_owned()))?;
    for start in (0..count).map(|at| 3 * at) {
        let call = format!("insert {start}{dots}{} {value}", start + 1);
        make(container, call.trim_end())?;
    }
    Ok(())
}

/// Makes a call that a container has whose keys have steps of their own, or none.
pub fn make_by_own_steps<C: OwnSteps>(container: &mut C, call: &str) -> Result<(), Fault> {
    let (name, operand) = first_word(call);
    match name {
        "new" => {
            same(C::default(), C::empty(), "default and new")?;
            *container = C::empty();
        }
        "extend" => container.extend(items::<C>(operand)?),
        "from_iter" => *container = items::<C>(operand)?.into_iter().collect(),
        _ => return make(container, call),
    }
    Ok(())
}

/// Makes a call that a set has whose keys have steps of their own, or none.
pub fn make_on_set<C: OwnSteps + Operators>(set: &mut C, call: &str) -> Result<(), Fault> {
    let (name, operand) = first_word(call);
    match name {
        "or" => *set = set.or(&C::filled(pairs(operand, PLUS)?)),
        "and" => *set = set.and(&C::filled(pairs(operand, PLUS)?)),
        "without" => *set = without(set, &C::filled(pairs(operand, PLUS)?)),
        "xor" => *set = in_one(set, &C::filled(pairs(operand, PLUS)?)),
        _ => return make_by_own_steps(set, call),
    }
    Ok(())
}

fn items<C: OwnSteps>(list: &str) -> Result<Vec<<C as OwnSteps>::Item>, Fault> {
    Ok(pairs(list, PLUS)?.into_iter().map(C::item).collect())
}
