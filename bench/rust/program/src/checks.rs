//! Plain checks of long, deep and empty payloads and of long searches, each printed on a line of its own.

use crate::clock::worked;
use crate::ours::{self, Answer, Found};
use crate::payloads::{element, entry, nested, SIBLING};
use crate::reads::NUMBERS;
use matroska::opened::ids::*;
use std::process::exit;

/// How many siblings of two bytes there are.
const MANY: u64 = 2_000_000;

/// How often a time is taken; the least counts.
const TIMES: usize = 9;

/// Twice as many elements take twice as long; by the square it would be four times.
const GROWTH: f64 = 3.0;

/// A read with the largest table, under no parent.
fn read(recording: &[u8], start: u64, size: u64) -> Answer {
    ours::read(recording, start, size, 0, &mut vec![0; NUMBERS])
}

/// A read without rows, under no parent.
fn count(recording: &[u8], start: u64, size: u64) -> Answer {
    ours::count(recording, start, size, 0)
}

pub fn run() {
    println!("Checks of ours:");
    let many = SIBLING.repeat(MANY as usize);
    let all = many.len() as u64;
    same("2,000,000 siblings", read(&many, 0, all), Err(13));
    same(
        "2,000,000 siblings, without rows",
        count(&many, 0, all),
        Ok(MANY),
    );
    let deep = nested(15);
    same("depth 15", read(&deep, 0, deep.len() as u64), Ok(16));
    let deeper = nested(16);
    same("depth 16", read(&deeper, 0, deeper.len() as u64), Err(12));
    // Siblings of 512 bytes, so that there are rows for all.
    let few = element(0xEC, &[0; 509]).repeat(2_048);
    same(
        "size 2^64-1, 2,048 siblings in 1 MiB",
        read(&few, 0, u64::MAX),
        Err(1),
    );
    let small = &many[..1 << 20];
    same(
        "size 2^64-1, 524,288, without rows",
        count(small, 0, u64::MAX),
        Err(1),
    );
    same("size 0 at the very end", read(&many, all, 0), Ok(0));
    same(
        "size 0 at the very end, without rows",
        count(&many, all, 0),
        Ok(0),
    );
    same("a start past the end", read(&many, all + 1, 0), Err(14));
    same(
        "a start past the end, without rows",
        count(&many, all + 1, 0),
        Err(14),
    );
    grows("siblings, without rows", MANY, |siblings| {
        assert_eq!(
            count(&many, 0, siblings * 2),
            Ok(siblings),
            "an answer changed"
        );
    });
    grows("siblings, to the last by owner", MANY, |siblings| {
        let last = siblings * 2 - 2;
        let owner = ours::owner(&many[..siblings as usize * 2], 0, last);
        let found = owner.map(|owner| owner.named);
        assert_eq!(found, Ok(last), "an answer changed");
    });
    searches(&many);
}

/// A search for Tags with the largest table.
fn tags(recording: &[u8]) -> Found {
    ours::part(recording, TAGS, &mut vec![0; NUMBERS])
}

/// A segment with so many seek heads, each leading to the next and the last to Tags behind it.
fn linked(heads: u64) -> Vec<u8> {
    let head = |id, position| element(SEEKHEAD, &entry(id, position));
    let length = head(TAGS, 0).len() as u64;
    let mut body = Vec::new();
    for k in 1..heads {
        body.extend(head(SEEKHEAD, length * k));
    }
    body.extend(head(TAGS, length * heads));
    body.extend(element(TAGS, &[]));
    element(SEGMENT, &body)
}

/// A segment with a seek head of so many entries for Tags, the last of them true.
fn entries(count: u64) -> Vec<u8> {
    let old = entry(TAGS, 0).repeat(count as usize - 1);
    let head = |position| element(SEEKHEAD, &[&old[..], &entry(TAGS, position)].concat());
    let length = head(0).len() as u64;
    element(SEGMENT, &[head(length), element(TAGS, &[])].concat())
}

/// How many entries a long seek head has.
const ENTRIES: u64 = 500_000;

/// The checks of searches; `many` are children that are passed over.
fn searches(many: &[u8]) {
    let long = element(SEGMENT, many);
    led("2,000,000 children, no part", tags(&long), Ok((false, 0)));
    led("64 linked heads", tags(&linked(64)), Ok((true, 64)));
    led("65 linked heads", tags(&linked(65)), Err(11));
    let all = entries(ENTRIES);
    led("500,000 entries of one id", tags(&all), Ok((true, 1)));
    let half = element(SEGMENT, &many[..many.len() / 2]);
    grows("children passed over", MANY, |children| {
        let recording = if children == MANY { &long } else { &half };
        assert_eq!(tags(recording), Ok((false, 0)), "an answer changed");
    });
    let fewer = entries(ENTRIES / 2);
    grows("entries of a seek head", ENTRIES, |entries| {
        let recording = if entries == ENTRIES { &all } else { &fewer };
        assert_eq!(tags(recording), Ok((true, 1)), "an answer changed");
    });
}

/// Prints what a search comes to, which has to be as expected.
fn led(name: &str, found: Found, expected: Found) {
    let told = |found| match found {
        Ok((true, heads)) => format!("found, {heads} heads"),
        Ok((false, heads)) => format!("absent, {heads} heads"),
        Err(number) => format!("refused {number}"),
    };
    println!("  {name:<40}{}", told(found));
    if found != expected {
        eprintln!("bench: {name}: {} was expected", told(expected));
        exit(1);
    }
}

/// Prints an answer, which has to be the expected one.
fn same(name: &str, answer: Answer, expected: Answer) {
    println!("  {name:<40}{}", told(answer));
    if answer != expected {
        eprintln!("bench: {name}: {} was expected", told(expected));
        exit(1);
    }
}

fn told(answer: Answer) -> String {
    match answer {
        Ok(elements) => format!("{elements} elements"),
        Err(number) => format!("refused {number}"),
    }
}

/// Prints the times of half of so many and of all, which is twice as many.
fn grows(name: &str, many: u64, mut work: impl FnMut(u64)) {
    let mut least = [f64::INFINITY; 2];
    for _ in 0..TIMES {
        for (least, count) in least.iter_mut().zip([many / 2, many]) {
            let start = worked();
            work(count);
            *least = least.min(worked() - start);
        }
    }
    let [half, all] = least;
    println!(
        "  {:<40}{:.1} ms for {}, {:.1} ms for {many}",
        format!("time of {name}"),
        half * 1e3,
        many / 2,
        all * 1e3,
    );
    if all / half > GROWTH {
        eprintln!(
            "bench: twice as many {name} take {:.1} times as long",
            all / half
        );
        exit(1);
    }
}
