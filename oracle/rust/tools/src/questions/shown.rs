//! Questions about the shown text of a row that was read: texts of both kinds in
//! trees of every shape, other kinds of rows, unused ones and those not in the table.

use crate::asked::{anything, damage, damaged, elsewhere, good, planted, Asked};
use crate::kind::parent;
use crate::payload;
use crate::random::Random;
use crate::tree::{bad_body, forest, wide, Body, Node};
use crate::utf8;
use tools::ids::{kind, STRING, STRING_KIND, UTF8, UTF8_KIND};

/// The shares are fixed: of 20 questions 9 are about trees with texts put into them, 3
/// about other good trees, 3 about damaged ones, 3 have odd arguments, 1 is about
/// anything, and 1 is a broken line.
pub fn question(_seed: u64, j: u64, random: &mut Random) -> Vec<u8> {
    let asked = match j % 20 {
        9..=11 => good(random),
        12 => damaged(random),
        13..=14 => {
            let mut asked = texts(random);
            damage(&mut asked, random);
            asked
        }
        15..=17 => elsewhere(random),
        18 => anything(random),
        _ => texts(random),
    };
    let row = row(&asked, random);
    payload::line("shown", j, &asked, row, random)
}

/// A tree with one to three texts put into it.
fn texts(random: &mut Random) -> Asked {
    let parent = parent(random);
    let levels = random.below(5);
    let mut nodes = forest(parent, levels, random);
    for _ in 0..random.between(1, 3) {
        put_text(&mut nodes, random);
    }
    planted(&nodes, parent, random)
}

/// Puts a text among some elements or into a master of them.
fn put_text(nodes: &mut Vec<Node>, random: &mut Random) {
    let place = random.below(nodes.len() as u64 + 1) as usize;
    let deeper = !random.once_in(3);
    match nodes.get_mut(place).map(|node| &mut node.body) {
        Some(Body::Master(within)) if deeper => put_text(within, random),
        _ => nodes.insert(place, text(random)),
    }
}

/// An element of either kind of text, seldom one that is no text.
fn text(random: &mut Random) -> Node {
    let id = if random.once_in(2) {
        random.one_of(&STRING)
    } else {
        random.one_of(&UTF8)
    };
    let body = match random.below(40) {
        0 => bad_body(UTF8_KIND, random),
        // No text, but for what is before a zero.
        1 => [utf8::text(random), vec![0], bad_body(UTF8_KIND, random)].concat(),
        2..=3 => Vec::new(),
        4..=15 => utf8::zeroed(random),
        // A text that reads as elements: a text, bytes and a master.
        16 => b"\x46\x6E\x40\x01A\x46\x5C\x40\x01A\x69\x24\x40\x00".to_vec(),
        17 => long(random),
        _ => utf8::text(random),
    };
    wide(id, Body::Leaf(body), random)
}

/// A text of a length where a size needs more bytes, every other one with a zero in it.
fn long(random: &mut Random) -> Vec<u8> {
    let length = random.one_of(&[126, 127, 128, 300, 16_382, 16_383, 16_384]);
    let mut text = vec![b'A'; length];
    if random.once_in(2) {
        let any = random.below(length as u64) as usize;
        text[random.one_of(&[0, any, length - 1])] = 0;
    }
    text
}

/// A row: mostly a text, else as for a payload.
fn row(asked: &Asked, random: &mut Random) -> u64 {
    let is_text = |id| [STRING_KIND, UTF8_KIND].contains(&kind(id, 0));
    let rows = (0..).zip(&asked.spots);
    let texts: Vec<u64> = rows
        .filter(|(_, spot)| is_text(spot.id))
        .map(|(row, _)| row)
        .collect();
    if texts.is_empty() || random.once_in(3) {
        return payload::row(asked, random);
    }
    random.one_of(&texts)
}
