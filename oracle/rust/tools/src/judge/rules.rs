//! The listed exceptions: where our answer may differ from the crate's. Each
//! rule looks at the question's own arguments and at the answers.

use crate::reading::MOST_AT_ONCE;
use crate::refusal::{parted, plain};
use crate::table::{Due, NOWHERE};
use crate::{live, open, owner, part, records, table};
use question::{parse, Question};

/// A question with the answers of ours and of the two builds of the oracle.
pub struct Case<'a> {
    pub question: &'a [u8],
    pub ours: &'a [u8],
    pub checked: &'a [u8],
    pub wrapping: &'a [u8],
}

impl Case<'_> {
    /// Whether both builds of the oracle give the same answer.
    fn agree(&self) -> bool {
        self.checked == self.wrapping
    }

    /// Whether one of them gives this answer.
    fn either(&self, answer: &[u8]) -> bool {
        self.checked == answer || self.wrapping == answer
    }
}

/// What is said of a case.
#[derive(Clone, Copy, PartialEq)]
pub enum Verdict {
    /// Ours is the oracle's answer, in both builds.
    Equal,
    /// The builds differ and ours is the answer of one of them.
    EqualToOne,
    /// A listed exception, by its name.
    Exception(&'static str),
    /// None of these.
    Unexplained,
}

/// What a rule says of a case: nothing, or whether the answers are as they have
/// to be where the rule holds.
type Rule = fn(&Question, &Case) -> Option<bool>;

/// The listed exceptions by name.
pub const NAMES: [&str; 13] = [
    "argument",
    "signed",
    "allocation",
    "depth",
    "rows",
    "assert",
    "circles",
    "heads",
    "wraps",
    "added",
    records::MARKS,
    table::ZEROS,
    live::LIVE_MODE,
];

/// Those of a header or body question, each with its rule. The element table and the records
/// have the first five, and the search and the whole recording the first nine. Of the next three
/// the label and the owner of an address have the first, and a track and shown text have theirs
/// beside the first five. The last is that of a live question that the crate can't be asked.
/// There the judge's own reading says what is due.
const RULES: [(&str, Rule); 3] = [
    ("argument", argument),
    ("signed", signed),
    ("allocation", allocation),
];

/// An argument is out of bounds, for which our reader has 14 and the crate has
/// nothing: a header or a body is asked for at a place past the end.
fn argument(question: &Question, case: &Case) -> Option<bool> {
    let (at, bytes) = match question {
        Question::Header { at, bytes } | Question::Body { at, bytes, .. } => (*at, bytes),
        _ => return None,
    };
    if at <= bytes.len() as u64 {
        return None;
    }
    Some(case.ours == b"refused 14" && case.agree() && without_bytes(question, case.checked))
}

/// Whether the crate can answer so where there is no byte to read.
fn without_bytes(question: &Question, answer: &[u8]) -> bool {
    let Question::Body { at, size, .. } = question else {
        return answer == b"refused 1";
    };
    match answer {
        // Its children are not read.
        b"master" => true,
        // An integer, signed ones of length 0 too, a float, a date, a text or
        // bytes.
        b"refused 1" => *size <= MOST_AT_ONCE,
        b"refused 4" => *size > 8,
        b"refused 5" => *size != 4 && *size != 8,
        b"refused 6" => *size != 8,
        b"memory" => *size > MOST_AT_ONCE,
        b"uint 0" => *size == 0,
        _ => {
            let empty = [format!("text {at}+0"), format!("bytes {at}+0")];
            *size == 0 && empty.iter().any(|text| text.as_bytes() == answer)
        }
    }
}

/// A signed integer of length 0 is 0; the crate says that a byte is missing,
/// and says so of no other body of length 0.
fn signed(question: &Question, case: &Case) -> Option<bool> {
    match question {
        Question::Body { size: 0, .. } if case.either(b"refused 1") => {
            Some(case.ours == b"int 0" && case.agree())
        }
        _ => None,
    }
}

/// The crate asks for all of a text's or a run's memory before it reads. Where
/// that fails the bytes can't be there.
fn allocation(question: &Question, case: &Case) -> Option<bool> {
    match question {
        Question::Body { size, .. } if case.either(b"memory") => {
            Some(case.ours == b"refused 1" && case.agree() && *size > MOST_AT_ONCE)
        }
        _ => None,
    }
}

/// The address that a refusal of a header or body question carries, given its number: where
/// the header began, or what the question names as its address, and none for 14. `None` if
/// it is no such question.
fn address_due(question: &Question, number: &str) -> Option<u64> {
    let address = match question {
        Question::Header { at, .. } => *at,
        Question::Body { address, .. } => *address,
        _ => return None,
    };
    Some(if number == "14" { NOWHERE } else { address })
}

/// Our answer to such a question without the address, which the crate does not have; `None`
/// if it is a refusal with another address than the one that is due, or without any.
fn without_address(question: &Question, ours: &[u8]) -> Option<Vec<u8>> {
    if !ours.starts_with(b"refused") {
        return Some(ours.to_vec());
    }
    let (plain, address) = parted(std::str::from_utf8(ours).ok()?)?;
    let due = address_due(question, plain.strip_prefix("refused ")?)?;
    (address == due).then(|| plain.into_bytes())
}

/// An answer of the crate as ours has to be where both agree: a refusal has its address.
/// Where they don't, it is the crate's own.
pub fn as_ours(question: &Question, theirs: &[u8]) -> Vec<u8> {
    if let Some(due) = due(question) {
        let equal = plain(&due.ours).as_bytes() == theirs;
        return if equal {
            due.ours.into_bytes()
        } else {
            theirs.to_vec()
        };
    }
    let number = theirs.strip_prefix(b"refused ");
    let number = number.and_then(|number| std::str::from_utf8(number).ok());
    match number.and_then(|number| address_due(question, number)) {
        Some(address) => [theirs, format!(" at {address}").as_bytes()].concat(),
        None => theirs.to_vec(),
    }
}

/// Judges one case.
pub fn verdict(case: &Case) -> Verdict {
    let Some(question) = parse(case.question) else {
        return equality(case);
    };
    // Agreeing with the crate is no excuse where a rule holds.
    if let Some(due) = due(&question) {
        return known_verdict(&due, case);
    }
    let Some(ours) = without_address(&question, case.ours) else {
        return Verdict::Unexplained;
    };
    let case = &Case {
        ours: &ours,
        ..*case
    };
    for (name, rule) in RULES {
        match rule(&question, case) {
            Some(true) => return Verdict::Exception(name),
            Some(false) => return Verdict::Unexplained,
            None => {}
        }
    }
    equality(case)
}

/// Compares our answer with those of both builds.
fn equality(case: &Case) -> Verdict {
    let checked = case.ours == case.checked;
    let wrapping = case.ours == case.wrapping;
    if checked && wrapping {
        Verdict::Equal
    } else if checked || wrapping {
        Verdict::EqualToOne
    } else {
        Verdict::Unexplained
    }
}

/// The answers due to a question about the element table, the search, the whole recording, a
/// record or the owner of an address, in both modes; `None` for any other.
pub fn due(question: &Question) -> Option<Due> {
    table::due(question)
        .or_else(|| part::due(question))
        .or_else(|| open::due(question))
        .or_else(|| records::due(question))
        .or_else(|| owner::due(question))
        .or_else(|| live::due(question))
}

/// There every answer is known beforehand, ours with the address of a refusal. A crate that
/// answers otherwise shows that the judge's reading is wrong.
fn known_verdict(due: &Due, case: &Case) -> Verdict {
    let pairs = [
        (&due.ours, case.ours),
        (&due.checked, case.checked),
        (&due.wrapping, case.wrapping),
    ];
    if pairs.iter().any(|(due, told)| due.as_bytes() != *told) {
        return Verdict::Unexplained;
    }
    due.exception.map_or(Verdict::Equal, Verdict::Exception)
}
