//! Prints questions: `questions SEED COUNT WORD..` gives COUNT questions of the
//! named kinds in turn, always the same for the same arguments.
//! `questions whole WORD FROM COUNT` gives a piece of a kind's whole list, which
//! has fewer questions where the list ends. `questions numbers ROWS` tells how many
//! numbers a table of so many rows has.
//! The word `live` in front of others makes every second question of those that take it a live
//! one; the others stay as they are without it. Alone it gives live questions of all of them.

mod asked;
mod body;
mod broken;
mod fields;
mod found;
mod header;
mod info;
mod kind;
mod label;
mod list;
mod live;
mod open;
mod owner;
mod part;
mod payload;
mod random;
mod range;
mod read;
mod record;
mod segment;
mod shown;
mod track;
mod tree;
mod utf8;
mod whose;

use list::List;
use question::numbers_of;
use random::Random;
use std::io::{self, BufWriter, Write};

/// One kind of question: the j-th of a seed, the same for ever.
type Kind = fn(seed: u64, j: u64, random: &mut Random) -> Vec<u8>;

/// The kinds that can be asked for, by their word.
const KINDS: [(&str, Kind); 25] = [
    ("header", header::question),
    ("kind", kind::question),
    ("utf8", utf8::question),
    ("body", body::question),
    ("read", read::question),
    ("whose", whose::question),
    ("payload", payload::question),
    ("range", range::question),
    ("part", part::question),
    ("attachment", record::attachment),
    ("edition", record::edition),
    ("chapter", record::chapter),
    ("display", record::display),
    ("tag", record::tag),
    ("uid", record::uid),
    ("simple", record::simple),
    ("audio", record::audio),
    ("tracktype", label::track_type),
    ("label", label::label),
    ("shown", shown::question),
    ("track", record::track),
    ("owner", owner::question),
    ("open", open::question),
    ("info", record::info),
    ("family", record::family),
];

/// A live question has numbers of its own: those of its kind's place and so many more. The first
/// kinds, which come so to the places of others, take no live mode.
const LIVE_PLACES: u64 = 22;

/// The kinds that have a whole list; the records and what goes with them have one, but
/// for the tracks and Info.
const WHOLE: [(&str, List); 10] = [
    ("kind", kind::WHOLE),
    ("utf8", utf8::WHOLE),
    ("read", read::WHOLE),
    ("part", part::WHOLE),
    ("record", record::WHOLE),
    ("track", track::WHOLE),
    ("owner", owner::WHOLE),
    ("live", live::WHOLE),
    ("open", open::WHOLE),
    ("info", info::WHOLE),
];

fn main() {
    let arguments: Vec<String> = std::env::args().skip(1).collect();
    let printed = if let Some((list, from, count)) = piece(&arguments) {
        print_piece(&list, from, count)
    } else if let Some(asked) = understand(&arguments) {
        print(&asked)
    } else if let Some(rows) = rows(&arguments) {
        println!("{}", numbers_of(rows));
        Ok(())
    } else {
        eprintln!(
            "usage: questions SEED COUNT [live] WORD.., words: {}
       questions SEED COUNT live
       questions whole WORD FROM COUNT, words: {}
       questions numbers ROWS",
            KINDS.map(|(word, _)| word).join(" "),
            WHOLE.map(|(word, _)| word).join(" ")
        );
        std::process::exit(2);
    };
    if let Err(error) = printed {
        eprintln!("questions: {error}");
        std::process::exit(1);
    }
}

/// The list that is named, and the piece of it.
fn piece(arguments: &[String]) -> Option<(List, u64, u64)> {
    let [whole, word, from, count] = arguments else {
        return None;
    };
    let named = WHOLE.into_iter().find(|(known, _)| known == word);
    let (_, list) = named.filter(|_| whole == "whole")?;
    Some((list, from.parse().ok()?, count.parse().ok()?))
}

fn print_piece(list: &List, from: u64, count: u64) -> io::Result<()> {
    let mut output = BufWriter::new(io::stdout().lock());
    for place in from..list.length.min(from.saturating_add(count)) {
        output.write_all(&(list.at)(place))?;
        output.write_all(b"\n")?;
    }
    output.flush()
}

/// The rows of the table that is asked about.
fn rows(arguments: &[String]) -> Option<u64> {
    let [numbers, rows] = arguments else {
        return None;
    };
    let rows: u32 = rows.parse().ok().filter(|_| numbers == "numbers")?;
    Some(u64::from(rows))
}

/// A kind with its place in the list.
type Placed = (usize, Kind);

/// What is asked for.
struct Wanted {
    seed: u64,
    count: u64,
    kinds: Vec<Placed>,
    live: Live,
}

/// Which questions of the words that take live mode are live.
#[derive(PartialEq)]
enum Live {
    Never,
    EverySecond,
    Always,
}

fn understand(arguments: &[String]) -> Option<Wanted> {
    let [seed, count, words @ ..] = arguments else {
        return None;
    };
    let (live, words) = match words {
        [word] if word == "live" => (
            Live::Always,
            question::LIVE_WORDS[..question::LIVE_ALONE]
                .iter()
                .map(|known| known.to_string())
                .collect(),
        ),
        [word, words @ ..] if word == "live" => (Live::EverySecond, words.to_vec()),
        _ => (Live::Never, words.to_vec()),
    };
    let kind = |word: &String| {
        let place = KINDS.iter().position(|(known, _)| known == word)?;
        Some((place, KINDS[place].1))
    };
    let kinds: Vec<_> = words.iter().map(kind).collect::<Option<_>>()?;
    if kinds.is_empty() {
        return None;
    }
    Some(Wanted {
        seed: seed.parse().ok()?,
        count: count.parse().ok()?,
        kinds,
        live,
    })
}

fn print(wanted: &Wanted) -> io::Result<()> {
    let mut output = BufWriter::new(io::stdout().lock());
    let turns = wanted.kinds.len() as u64;
    for i in 0..wanted.count {
        let kind = wanted.kinds[(i % turns) as usize];
        output.write_all(&asked(wanted, kind, i / turns))?;
        output.write_all(b"\n")?;
    }
    output.flush()
}

/// The j-th question of a kind. Each has numbers of its own, whatever else is asked for.
fn asked(wanted: &Wanted, (place, kind): Placed, j: u64) -> Vec<u8> {
    let (seed, word) = (wanted.seed, KINDS[place].0);
    let (live, j) = match wanted.live {
        Live::EverySecond if live::takes_it(word) => (j % 2 == 1, j / 2),
        Live::Always => (true, j),
        _ => (false, j),
    };
    if live {
        let mut random = Random::new(&[seed, LIVE_PLACES + place as u64, j]);
        return live::question(word, kind, seed, j, &mut random);
    }
    kind(seed, j, &mut Random::new(&[seed, place as u64, j]))
}
