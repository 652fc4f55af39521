//! Times our headers, kinds, tests of UTF-8, bodies, reads of elements, searches and records beside Rust's, and our
//! address questions beside each other: bench ROUNDS. First all answers have to agree and the checks to pass; status 1
//! and one line if they don't.

mod addresses;
mod bodies;
mod checks;
mod clock;
mod headers;
mod inputs;
mod ours;
mod payloads;
mod reads;
mod records;
mod searches;
mod sorted;
mod timing;

use inputs::{Chance, Pairs, Texts};
use matroska::opened::number::number_of;
use sorted::Sorted;
use std::hint::black_box;
use std::process::exit;
use timing::Report;

/// How many damaged copies of each text are tested before the timing.
const DAMAGED: usize = 200;

fn main() {
    let rounds = std::env::args().nth(1).and_then(|word| word.parse().ok());
    let Some(rounds) = rounds.filter(|&rounds| rounds > 0) else {
        eprintln!("usage: bench ROUNDS");
        exit(2);
    };
    let sorted = Sorted::new();
    let pairs = inputs::pairs();
    let texts = inputs::texts();
    let headers = headers::headers(&pairs[0]);
    let bodies = bodies::bodies();
    let payloads = payloads::payloads();
    let recordings = searches::recordings();
    let records = records::records();
    let addresses = addresses::addresses();
    for pairs in &pairs {
        check_kinds(pairs, &sorted);
    }
    for texts in &texts {
        check_utf8(texts);
    }
    headers::check(&headers);
    bodies::check(&bodies);
    reads::check(&payloads);
    searches::check(&recordings);
    records::check(&records);
    addresses::check(&addresses);
    checks::run();
    println!("All answers agree. Both are compiled at -O3 for plain x86-64, each in one piece.");
    println!("{rounds} rounds: the median, least to most, and the median's rate.");
    let report = &mut Report::new(rounds);
    for headers in &headers {
        headers::time(headers, report);
    }
    for pairs in &pairs {
        time_kinds(pairs, &sorted, report);
    }
    for texts in &texts {
        time_utf8(texts, report);
    }
    for bodies in &bodies {
        bodies::time(bodies, report);
    }
    for payload in &payloads {
        reads::time(payload, report);
    }
    for recordings in &recordings {
        searches::time(recordings, report);
    }
    for records in &records {
        records::time(records, report);
    }
    for addresses in &addresses {
        addresses::time(addresses, report);
    }
    report.end();
}

/// The crate's way; parent 0 is none.
fn by_sets(id: u32, parent: u32) -> u64 {
    number_of(id, (parent != 0).then_some(parent))
}

fn check_kinds(pairs: &Pairs, sorted: &Sorted) {
    for (&id, &parent) in pairs.ids.iter().zip(&pairs.parents) {
        let summed = ours::kinds(&[id], &[parent]);
        let called = ours::kind(id, parent);
        let sets = by_sets(id, parent);
        let search = sorted.number_of(id, parent);
        if [summed, called, search] != [sets; 3] {
            eprintln!(
                "bench: {id:X} under {parent:X}: {sets} by the crate's sets, {search} by a binary \
                 search, ours {summed} as a sum of one and {called} by one call"
            );
            exit(1);
        }
    }
}

/// The sum of the numbers that a lookup gives.
fn sum(pairs: &Pairs, number: impl Fn(u32, u32) -> u64) -> u64 {
    let pairs = black_box(pairs);
    let both = pairs.ids.iter().zip(&pairs.parents);
    both.map(|(&id, &parent)| number(id, parent)).sum()
}

fn time_kinds(pairs: &Pairs, sorted: &Sorted, report: &mut Report) {
    let count = pairs.ids.len();
    report.compare(
        &format!("kind, {}", pairs.name),
        &format!("a lookup ({count} ids)"),
        count,
        sum(pairs, by_sets),
        &[
            (
                "ours, all in one call",
                Box::new(|| {
                    let pairs = black_box(pairs);
                    ours::kinds(&pairs.ids, &pairs.parents)
                }),
            ),
            ("ours, one call each", Box::new(|| sum(pairs, ours::kind))),
            ("the crate's phf sets", Box::new(|| sum(pairs, by_sets))),
            (
                "Rust's binary search",
                Box::new(|| {
                    let sorted = black_box(sorted);
                    sum(pairs, |id, parent| sorted.number_of(id, parent))
                }),
            ),
        ],
    );
}

fn by_rust(bytes: &[u8]) -> bool {
    std::str::from_utf8(bytes).is_ok()
}

fn check_utf8(texts: &Texts) {
    let mut chance = Chance::new(4);
    for text in &texts.texts {
        same_utf8(texts.name, text);
        for _ in 0..DAMAGED.min(text.len()) {
            let mut damaged = text.clone();
            let place = chance.below(text.len());
            damaged[place] ^= 1 << chance.below(8);
            same_utf8(texts.name, &damaged);
            same_utf8(texts.name, &text[place..]);
            same_utf8(texts.name, &text[..place]);
        }
    }
}

fn same_utf8(name: &str, bytes: &[u8]) {
    let (ours, rust) = (ours::utf8(bytes), std::str::from_utf8(bytes));
    if ours != rust.is_ok() {
        let good = rust.map_or_else(|error| error.valid_up_to(), str::len);
        let count = bytes.len();
        eprintln!("bench: {name}: ours says {ours} of {count} bytes, by Rust {good} are good");
        exit(1);
    }
}

/// How many texts pass a test.
fn passing(texts: &Texts, test: impl Fn(&[u8]) -> bool) -> u64 {
    let texts = black_box(texts);
    let good = texts.texts.iter().filter(|text| test(text));
    good.count() as u64
}

fn time_utf8(texts: &Texts, report: &mut Report) {
    let (count, bytes) = (texts.texts.len(), texts.bytes());
    report.compare(
        &format!("UTF-8, {}", texts.name),
        &format!("a byte ({bytes} in {count})"),
        bytes,
        count as u64,
        &[
            ("ours, is_utf8", Box::new(|| passing(texts, ours::utf8))),
            ("Rust's from_utf8", Box::new(|| passing(texts, by_rust))),
        ],
    );
}
