//! Questions about the kind of an id: every id below 2^16, the listed ids and
//! their neighbours under every parent that matters, others, and broken lines.

use crate::broken::{self, Sort};
use crate::list::List;
use crate::random::Random;
use tools::ids::{listed, LISTED, MASTER, PARENTS, SPECIAL};

/// How many ids of all 32 bits the whole list has.
const SAMPLE: u64 = 4_096;

/// How many ids the whole list has.
const IDS: u64 = 65_536 + 3 * LISTED + SAMPLE;

/// Each of these ids under each of the parents.
pub const WHOLE: List = List {
    length: IDS * PARENTS.len() as u64,
    at: |place| pair(place, id_at, &PARENTS),
};

/// Each listed id under each of the parents.
const KNOWN: List = List {
    length: LISTED * PARENTS.len() as u64,
    at: |place| pair(place, listed, &PARENTS),
};

/// Each master under each special parent.
const MASTERS: List = List {
    length: (MASTER.len() * SPECIAL.len()) as u64,
    at: |place| pair(place, |number| MASTER[number as usize], &SPECIAL),
};

/// The question at a place of a list that has each id under each parent.
fn pair(place: u64, id: fn(u64) -> u32, parents: &[u32]) -> Vec<u8> {
    let count = parents.len() as u64;
    line(id(place / count), parents[(place % count) as usize])
}

/// The id at a place: those of 16 bits, each listed id between its neighbours,
/// then the sample.
fn id_at(place: u64) -> u32 {
    let mut place = place;
    if place < 65_536 {
        return place as u32;
    }
    place -= 65_536;
    if place < 3 * LISTED {
        return listed(place / 3) - 1 + (place % 3) as u32;
    }
    any_id(&mut Random::new(&[place]))
}

/// The shares are fixed: of 20 questions 7 are from a walk through the whole
/// list, 5 from one through the listed ids, 3 from one through the masters under
/// special parents, 2 are about an id that is like a listed one, 2 about any id,
/// and 1 is a broken line. 5 of 20 go through the listed ids in 14,180
/// questions, 3 of 20 through the masters in 1,640.
pub fn question(seed: u64, j: u64, random: &mut Random) -> Vec<u8> {
    let (round, turn) = (j / 20, j % 20);
    match turn {
        0..=6 => WHOLE.walk(seed, round * 7 + turn),
        7..=11 => KNOWN.walk(seed, round * 5 + turn - 7),
        12..=14 => MASTERS.walk(seed, round * 3 + turn - 12),
        15..=16 => {
            let id = listed(random.below(LISTED));
            line(like(id, random), parent(random))
        }
        17..=18 => line(any_id(random), parent(random)),
        _ => {
            let id = format!("{:X}", listed(random.below(LISTED)));
            let parent = format!("{:X}", random.one_of(&PARENTS));
            broken::broken(&["kind", &id, &parent], &[Sort::Id, Sort::Id], random)
        }
    }
}

fn line(id: u32, parent: u32) -> Vec<u8> {
    format!("kind {id:X} {parent:X}").into_bytes()
}

/// An id that differs a little: a neighbour, another bit, a byte more or less.
fn like(id: u32, random: &mut Random) -> u32 {
    match random.below(5) {
        0 => id.wrapping_sub(1),
        1 => id.wrapping_add(1),
        2 => id ^ (1 << random.below(32)),
        3 => id << 8 | u32::from(random.byte()),
        _ => id >> 8,
    }
}

/// An id of any width up to 32 bits.
pub fn any_id(random: &mut Random) -> u32 {
    let narrower = random.one_of(&[0, 0, 0, 3, 8, 11, 16]);
    random.number() as u32 >> narrower
}

/// A parent: special, like a special one, a master, or any id.
pub fn parent(random: &mut Random) -> u32 {
    match random.below(8) {
        0..=3 => random.one_of(&PARENTS),
        4 => {
            let special = random.one_of(&SPECIAL);
            like(special, random)
        }
        5..=6 => random.one_of(&MASTER),
        _ => any_id(random),
    }
}
