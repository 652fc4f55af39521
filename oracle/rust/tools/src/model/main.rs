//! A model of our reader, to test the judge and the stored lists with: `model` answers the
//! questions on standard input as documents 01 and 02 order, `model FAULT` with one fault.
//! `model faults` tells the faults, `model faults SORT` those of one sort: of single headers
//! and bodies, of the element table and the search, of the owner of an address, of records,
//! of tracks, of live mode, of the whole recording at once, and of Info. It shares no reading
//! with the judge.

mod ended;
mod faults;
mod info;
mod label;
mod lent;
mod live;
mod open;
mod owner;
mod places;
mod records;
mod refusal;
mod search;
mod single;
mod track;

use faults::{INFO, LIVE, OPEN, OWNER, RECORD, SINGLE, TABLE, TRACK};
use faults::{SHARED, SHARED_INFO, SHARED_LIVE, SHARED_OPEN, SHARED_TABLE};
use lent::{Lent, Read};
use question::{parse, rows_in, Question};
use refusal::{refusal, Refusal};
use std::io::{self, BufRead, BufWriter, Write};
use tools::ids::kind;

/// The sorts of faults.
const SORTS: [&str; 8] = [SINGLE, TABLE, OWNER, RECORD, TRACK, LIVE, OPEN, INFO];

/// The fault of this run, or none, and whether the question is in live mode.
#[derive(Clone, Copy)]
pub struct Fault {
    name: Option<&'static str>,
    pub live: bool,
}

impl Fault {
    /// Whether it is the one of that name.
    pub fn is(self, name: &str) -> bool {
        self.name == Some(name)
    }

    /// The same for a reader that reads plainly with the fault of that name.
    pub fn plain_with(self, name: &str) -> Fault {
        Fault {
            live: self.live && !self.is(name),
            ..self
        }
    }
}

fn main() {
    let arguments: Vec<String> = std::env::args().skip(1).collect();
    let done = match &arguments[..] {
        [] => answer_all(None),
        [word] if word == "faults" => tell(&SORTS),
        [word, sort] if word == "faults" && sort == "single" => tell(&[SINGLE]),
        [word, sort] if word == "faults" && sort == "table" => tell(&[TABLE]),
        [word, sort] if word == "faults" && sort == "owner" => {
            tell(&[OWNER, &shared(TABLE, &SHARED_TABLE)])
        }
        [word, sort] if word == "faults" && sort == "record" => tell(&[RECORD]),
        [word, sort] if word == "faults" && sort == "track" => {
            tell(&[TRACK, &shared(RECORD, &SHARED)])
        }
        [word, sort] if word == "faults" && sort == "live" => tell(&[LIVE]),
        [word, sort] if word == "faults" && sort == "open" => tell(&[
            OPEN,
            &shared(TABLE, &SHARED_OPEN),
            &shared(LIVE, &SHARED_LIVE),
        ]),
        [word, sort] if word == "faults" && sort == "info" => tell(&[
            INFO,
            &shared(RECORD, &SHARED_INFO),
            &shared(LIVE, &["live-record-plain"]),
        ]),
        [word] if known(word).is_some() => answer_all(known(word)),
        _ => {
            eprintln!(
                "usage: model [FAULT]\n       model faults [{}]",
                "single|table|owner|record|track|live|open|info"
            );
            std::process::exit(2);
        }
    };
    if let Err(error) = done {
        eprintln!("model: {error}");
        std::process::exit(1);
    }
}

fn tell(faults: &[&str]) -> io::Result<()> {
    io::stdout().write_all(faults.concat().as_bytes())
}

/// The lines of the faults of a sort that another sort shares, by their names.
fn shared(sort: &str, names: &[&str]) -> String {
    let shared = sort.lines().filter(|line| names.contains(&named(line)));
    shared.map(|line| format!("{line}\n")).collect()
}

/// The name of a fault, from its line.
fn named(line: &str) -> &str {
    line.split(':').next().unwrap_or(line)
}

/// The fault of that name.
fn known(word: &str) -> Option<&'static str> {
    let mut names = SORTS.into_iter().flat_map(str::lines).map(named);
    names.find(|name| *name == word)
}

fn answer_all(fault: Option<&'static str>) -> io::Result<()> {
    let mut output = BufWriter::new(io::stdout().lock());
    for line in io::stdin().lock().split(b'\n') {
        let question = parse(&line?);
        let fault = |live| Fault { name: fault, live };
        let told = match question {
            None => "bad question".to_string(),
            Some(Question::Live(asked)) => answer(&asked, live_mode(&asked, fault(true))),
            Some(asked) => answer(&asked, fault(false)),
        };
        writeln!(output, "{told}")?;
    }
    output.flush()
}

/// The mode of a live question. With a fault it is the plain one for some questions.
fn live_mode(question: &Question, fault: Fault) -> Fault {
    fault.plain_with("live-never").plain_with(match question {
        Question::Read { .. } => "live-read-plain",
        Question::Whose { .. } => "live-whose-plain",
        Question::Payload { .. } | Question::Shown { .. } => "live-row-plain",
        Question::Owner { .. } => "live-owner-plain",
        Question::Part { .. } => "live-search-plain",
        Question::Open { .. } => "open-live-plain",
        _ => "live-record-plain",
    })
}

fn answer(question: &Question, fault: Fault) -> String {
    // The answer of a call that has no table.
    let told = |answer: Result<String, Refusal>| {
        answer.unwrap_or_else(|refusal| refusal.told(None, "", fault))
    };
    match question {
        Question::Header { at, bytes } => told(single::header(*at, bytes, fault)),
        Question::Kind { id, parent } => single::kind(*id, *parent),
        Question::Utf8 { bytes } => single::utf8(bytes).to_string(),
        Question::Body {
            id,
            parent,
            at,
            size,
            address,
            bytes,
        } => {
            let body = single::Body {
                kind: kind(*id, *parent),
                at: *at,
                size: *size,
                address: *address,
                bytes,
            };
            told(body.answer(fault))
        }
        Question::Read {
            start,
            size,
            parent,
            numbers,
            bytes,
        } => {
            let mut lent = Lent::new(*numbers, fault);
            let read = lent.read(&Read::new(*start, *size, *parent, bytes));
            lent.told(read.map(|()| String::new()))
        }
        Question::Whose {
            start,
            size,
            parent,
            address,
            numbers,
            bytes,
        } => {
            let mut lent = Lent::new(*numbers, fault);
            let read = Read::new(*start, *size, *parent, bytes);
            let whose = places::whose(&mut lent, &read, *address, fault);
            lent.told(whose)
        }
        Question::Payload {
            start,
            size,
            parent,
            numbers,
            row,
            bytes,
        } => {
            let mut lent = Lent::new(*numbers, fault);
            if fault.is("row-first") && *row >= rows_in(*numbers) {
                return told(Err(refusal(14, 0)));
            }
            match lent.read(&Read::new(*start, *size, *parent, bytes)) {
                Ok(()) => places::payload(&lent, *row, bytes, fault),
                Err(refusal) => lent.told(Err(refusal)),
            }
        }
        Question::Shown {
            start,
            size,
            parent,
            numbers,
            row,
            bytes,
        } => {
            let mut lent = Lent::new(*numbers, fault);
            match lent.read(&Read::new(*start, *size, *parent, bytes)) {
                Ok(()) => places::shown(&lent, *row, bytes, fault),
                Err(refusal) => lent.told(Err(refusal)),
            }
        }
        Question::Part { id, numbers, bytes } => {
            let mut lent = Lent::new(*numbers, fault);
            let found = search::part(&mut lent, *id, bytes, fault);
            lent.told(found)
        }
        Question::Open { numbers, bytes } => open::answer(*numbers, bytes, fault),
        Question::Range { table, row, bytes } => {
            let range = places::range(table, *row, bytes.len() as u64, fault);
            told(range.map(|(from, length)| format!("at {from}+{length}")))
        }
        Question::Owner {
            start,
            size,
            parent,
            address,
            bytes,
        } => {
            let read = Read::new(*start, *size, *parent, bytes);
            let table = if fault.is("owner-table") {
                " table 0"
            } else {
                ""
            };
            let owner = owner::owner(&read, *address, fault);
            owner.unwrap_or_else(|refusal| refusal.told(None, table, fault))
        }
        Question::TrackType { number } => label::track_type(*number, fault).to_string(),
        Question::Label {
            range,
            label,
            bytes,
        } => label::label(*range, label, bytes, fault),
        _ => {
            let asked = records::asked(question).expect("all other questions ask for a record");
            let mut lent = Lent::new(asked.payload.numbers, fault);
            let told = records::record(&mut lent, &asked, fault);
            lent.counted(told)
        }
    }
}
