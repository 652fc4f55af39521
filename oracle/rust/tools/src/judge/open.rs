//! The whole recording at once, read straight from document 02 (C-14) and apart from the crate,
//! over the judge's own search: every part that is met is read and the last of each stands; at
//! the first head the five are looked up in their order, and what is found takes the place of
//! what was met.

use crate::live::Met;
use crate::part::{due_by, live_by, Answer, Found, Live, Search, Stop, Wanted};
use crate::refusal::refused;
use crate::table::{broken, table, Due, NOWHERE};
use question::Question;
use tools::ids::FIVE;

/// The answers due to a question; `None` if it does not ask for all parts.
pub fn due(question: &Question) -> Option<Due> {
    let Question::Open { numbers, bytes } = question else {
        return None;
    };
    Some(due_by(bytes, |search| answer(search, *numbers)))
}

/// Ours in live mode.
pub fn live(numbers: [u64; 5], bytes: &[u8]) -> Live {
    live_by(bytes, |search| answer(search, numbers))
}

/// How many heads were read, and the five parts.
struct Opened {
    heads: usize,
    parts: [Option<Found>; 5],
}

/// The answer: 14 for the five tables, then what the walk and the heads give.
fn answer(search: &Search, numbers: [u64; 5]) -> Answer {
    if search.terms.bounds && numbers.into_iter().any(broken) {
        return (refused(14, None, NOWHERE) + " tables 0", None);
    }
    let wanted = |number: usize| Wanted {
        id: FIVE[number].1,
        parent: FIVE[number].2,
        numbers: numbers[number],
    };
    let mut parts = [const { None }; 5];
    // A part that is met is read before it is looked whether it overruns the segment.
    let walk = search.walk(&mut |at, child| {
        if let Some(number) = (0..5).find(|number| wanted(*number).id == child.id) {
            parts[number] = Some(search.read(at, child, wanted(number))?);
        }
        Ok(false)
    });
    let opened = walk.met.and_then(|met| {
        let mut heads = 0;
        if let Met::Head(at, head) = met {
            let chain = search.heads(walk.start, at, head)?;
            for (number, part) in parts.iter_mut().enumerate() {
                let named = search.named(&chain, wanted(number))?;
                *part = named.or(part.take());
            }
            heads = chain.count;
        }
        Ok(Opened { heads, parts })
    });
    (told(opened), Some(walk))
}

fn told(opened: Result<Opened, Stop>) -> String {
    let Opened { heads, parts } = match opened {
        Ok(opened) => opened,
        Err(stop) => return stop.told(" tables 0"),
    };
    let mut told = format!("heads {heads}");
    for ((name, ..), part) in FIVE.iter().zip(parts) {
        told += &match part {
            None => format!(" {name} absent {}", table(&[])),
            Some(Found { at, size, rows }) => {
                format!(" {name} at {at} size {size} {}", table(&rows))
            }
        };
    }
    told
}
