//! Recordings to search: parts that are met, heads that name them, heads in each
//! other, long chains of heads, chains with entries that are too far, and webs of heads.

use crate::random::Random;
use crate::segment::{
    count, element, head, leaf, pieces, seek, seek_to, segment, shuffled, Piece, Size, ORIGIN,
};
use crate::tree::{chain, forest, Body, Node};
use tools::ids::{part_parent, PARTS, SEEK, SEEK_HEAD, SEEK_ID, SEEK_POSITION, SEGMENT};

/// A recording, a part that it may have, and how many rows that needs.
pub struct Made {
    pub pieces: Vec<Piece>,
    pub wanted: u32,
    pub rows: u64,
}

/// The marks of heads, parts and other elements, of one before the segment, and of
/// what stands behind it.
pub const HEADS: u64 = 1_000;
pub const PLACES: u64 = 2_000;
pub const OTHERS: u64 = 3_000;
const BEFORE: u64 = 4_000;
pub const BEHIND: u64 = 5_000;

/// Any of the four parts.
pub fn any_part(random: &mut Random) -> u32 {
    random.one_of(&PARTS).0
}

/// A segment without a head, in which the part may be met.
pub fn met(random: &mut Random) -> Made {
    let wanted = any_part(random);
    let (mut children, mut rows) = (Vec::new(), 0);
    for _ in 0..random.below(5) {
        children.push(if random.once_in(3) {
            let id = any_part(random);
            element(id, contents(id, random))
        } else {
            other(random)
        });
    }
    if !random.once_in(4) {
        let within = contents(wanted, random);
        rows = count(&within);
        children.push(element(wanted, within));
        if random.once_in(3) {
            children.push(element(wanted, contents(wanted, random)));
        }
    }
    if random.once_in(4) {
        children.push(other(random));
    }
    Made {
        pieces: recording(children, random),
        wanted,
        rows,
    }
}

/// One to three heads that name some parts. Odd ones have entries of every form
/// that lead anywhere.
pub fn headed(odd: bool, random: &mut Random) -> Made {
    let wanted = any_part(random);
    let heads = random.one_of(&[1, 1, 2, 2, 3, 3]);
    let mut parts: Vec<u32> = (0..random.below(3)).map(|_| any_part(random)).collect();
    for _ in 0..random.one_of(&[0, 1, 1, 1, 1, 1, 1, 2]) {
        parts.push(wanted);
    }

    let mut seeks: Vec<Vec<Piece>> = vec![Vec::new(); heads as usize];
    for (id, mark) in parts.iter().zip(PLACES..) {
        let times = random.one_of(&[0, 1, 1, 1, 1, 1, 2]);
        for _ in 0..times {
            let which = random.below(heads) as usize;
            seeks[which].push(entry(*id, mark, odd, random));
        }
    }
    for (which, own) in seeks.iter_mut().enumerate() {
        let next = which as u64 + 1;
        // The last one may lead back.
        let back = random.once_in(12);
        if next < heads {
            own.push(entry(SEEK_HEAD, HEADS + next, odd, random));
        } else if back {
            own.push(entry(SEEK_HEAD, HEADS + random.below(heads), odd, random));
        }
        if random.once_in(if odd { 4 } else { 16 }) {
            own.extend(filler(random));
        }
    }

    let mut rows = 0;
    let mut behind = Vec::new();
    for (id, mark) in parts.iter().zip(PLACES..) {
        let within = contents(*id, random);
        if *id == wanted {
            rows = count(&within);
        }
        behind.push(vec![Piece::Mark(mark), element(*id, within)]);
    }
    let mut first = Vec::new();
    for (own, mark) in seeks.into_iter().zip(HEADS..) {
        let own = vec![Piece::Mark(mark), head(shuffled(own, random))];
        if mark == HEADS {
            first = own;
        } else {
            behind.push(own);
        }
    }
    for mark in OTHERS..OTHERS + random.below(3) {
        behind.push(vec![Piece::Mark(mark), other(random)]);
    }

    let mut children = Vec::new();
    if random.once_in(4) {
        children.push(other(random));
    }
    if random.once_in(12) {
        let id = any_part(random);
        children.push(element(id, contents(id, random)));
    }
    children.extend(first);
    children.extend(shuffled(behind, random).concat());
    Made {
        pieces: recording(children, random),
        wanted,
        rows,
    }
}

/// An entry for the element at a mark.
pub fn entry(id: u32, mark: u64, odd: bool, random: &mut Random) -> Piece {
    let width = random.one_of(&[1, 1, 2, 2, 2, 3, 4, 8]);
    if !odd || random.once_in(2) {
        return seek(id, mark, width);
    }
    let position = place(mark, width, random);
    if random.once_in(2) {
        return seek_to(id, position);
    }
    let id_of = |bytes: &[u8]| leaf(SEEK_ID, bytes);
    let at = |position: Piece| element(SEEK_POSITION, vec![position]);
    let (right, there) = (id_of(&id.to_be_bytes()), at(position));
    let (wrong, elsewhere) = (any_id(random), at(place(mark, 2, random)));
    let front = random.between(1, 5);
    let long = [random.bytes(front), id.to_be_bytes().to_vec()].concat();
    let [short, bytes] = [random.below(4), random.below(10)];
    let members = match random.below(18) {
        0 => vec![there, right],
        1 => vec![id_of(&wrong.to_be_bytes()), right, there],
        2 => vec![right, id_of(&wrong.to_be_bytes()), there],
        3 => vec![right, elsewhere, there],
        4 => vec![there, right, elsewhere],
        5 => vec![there],
        6 => vec![right],
        7 => Vec::new(),
        8..=9 => vec![id_of(&long), there],
        10 => vec![id_of(&id.to_be_bytes()[short as usize..]), there],
        11 => vec![id_of(&id.to_be_bytes()[..short as usize]), there],
        12 => vec![right, leaf(SEEK_POSITION, &random.bytes(bytes))],
        13 => vec![right, there, leaf(SEEK_POSITION, &[])],
        14 => vec![there, right, leaf(SEEK_ID, &[])],
        15 => vec![other(random), right, other(random), there],
        // A Seek's own members are those that stand directly in it.
        16 => {
            let deep = vec![id_of(&wrong.to_be_bytes()), elsewhere];
            vec![right, there, element(random.one_of(&[SEEK, 0xAE]), deep)]
        }
        _ => vec![element(SEEK, vec![right, there])],
    };
    element(SEEK, members)
}

/// A place that an entry names: the mark, near it, another element, past the end,
/// or around 2^64.
fn place(mark: u64, width: u64, random: &mut Random) -> Piece {
    let (mark, more, width) = match random.below(15) {
        0 => (HEADS + random.below(3), 0, width),
        1 => (PLACES + random.below(3), 0, width),
        2 => (OTHERS + random.below(2), 0, width),
        3 => (mark, random.between(1, 5), width),
        4 => (mark, 0u64.wrapping_sub(random.between(1, 3)), width),
        5 => (mark, random.one_of(&[90, 1_000, 60_000]), 2),
        6 => (ORIGIN, u64::MAX - random.below(2), 8),
        7 => (ORIGIN, random.below(4), 8),
        8 => (BEFORE, 0, 8),
        9 => (mark, 1 << 63, 8),
        10 => (mark, 1 << 32, random.one_of(&[5, 8])),
        11 => (mark, 0, random.one_of(&[0, 5, 6, 7, 9])),
        12 => (BEHIND, 0, 2),
        _ => (mark, 0, width),
    };
    Piece::Position { mark, more, width }
}

/// An id that an entry may name.
fn any_id(random: &mut Random) -> u32 {
    match random.below(4) {
        0 => random.one_of(&[0, SEGMENT, 0x1549A966, 0x1C53BB6B, u32::MAX]),
        1 => SEEK_HEAD,
        _ => any_part(random),
    }
}

/// What may stand in a head beside its entries.
fn filler(random: &mut Random) -> Vec<Piece> {
    match random.below(8) {
        0 => vec![leaf(0xEC, &random.bytes(3))],
        1 => vec![leaf(0xBF, &random.bytes(4))],
        2 => pieces(&forest(SEGMENT, 2, random)),
        // A row here would be too deep, or just not.
        3..=4 => {
            let depth = random.one_of(&[14, 15, 15, 16, 16, 17]);
            pieces(&chain(SEGMENT, depth, false, random))
        }
        // The same in a Seek.
        5 => {
            let depth = random.one_of(&[13, 14, 14, 15, 15]);
            vec![element(SEEK, pieces(&chain(SEEK, depth, false, random)))]
        }
        6 => vec![element(
            random.one_of(&[0xAE, SEEK_HEAD, SEGMENT]),
            vec![seek(any_id(random), PLACES, 1)],
        )],
        _ => vec![refused(random)],
    }
}

/// An element that is refused for its body: by all, or by the crate alone.
pub fn refused(random: &mut Random) -> Piece {
    let (id, body): (u32, &[u8]) = match random.below(8) {
        0 => (0x83, &[0; 9]),
        1 => (0xB5, &[0; 3]),
        2 => (0x4461, &[0; 7]),
        3 => (0x85, b"\xC3"),
        4 => (0x86, b"\xFF"),
        5 => (0xFD, &[0; 9]),
        6 => (0xFB, b""),
        // A size of 2^32 + 1.
        _ => return Piece::Bytes(b"\xEC\x09\0\0\0\x01".to_vec()),
    };
    leaf(id, body)
}

/// A head that stands inside another one: as a child, in bytes, in an id.
pub fn nested(random: &mut Random) -> Made {
    let wanted = any_part(random);
    let mut inner = Vec::new();
    if !random.once_in(3) {
        inner.push(seek(wanted, PLACES + 1, 1));
    }
    match random.below(6) {
        0 => inner.push(seek(SEEK_HEAD, HEADS, 1)),
        1 => inner.push(seek(SEEK_HEAD, HEADS + 1, 1)),
        2 => inner.push(seek(SEEK_HEAD, HEADS + 2, 1)),
        _ => {}
    }
    let inner = vec![Piece::Mark(HEADS + 1), head(inner)];
    let holder = match random.below(5) {
        0 => inner,
        1 => vec![element(0xEC, inner)],
        2 => vec![element(SEEK, vec![element(SEEK_ID, inner)])],
        3 => vec![element(SEEK, inner)],
        _ => vec![element(0xAE, vec![element(0xEC, inner)])],
    };
    let mut outer = vec![vec![seek(SEEK_HEAD, HEADS + 1, 1)], holder];
    if random.once_in(2) {
        outer.push(vec![seek(wanted, PLACES, 1)]);
    }
    let outer = head(shuffled(outer, random).concat());
    let within = contents(wanted, random);
    let rows = count(&within);
    let children = vec![
        Piece::Mark(HEADS),
        outer,
        Piece::Mark(PLACES),
        element(wanted, Vec::new()),
        Piece::Mark(PLACES + 1),
        element(wanted, within),
        Piece::Mark(HEADS + 2),
        head(vec![seek(wanted, PLACES, 2)]),
    ];
    Made {
        pieces: recording(children, random),
        wanted,
        rows,
    }
}

/// A chain of heads around the most that are read, with every end.
pub fn long(random: &mut Random) -> Made {
    let wanted = any_part(random);
    let heads = random.one_of(&[62, 63, 63, 64, 64, 64, 64, 64, 65, 65, 65, 66]);
    let link = |more| seek(SEEK_HEAD, HEADS + more, 2);
    let named = random.below(heads);
    let mut chain: Vec<Vec<Piece>> = Vec::new();
    for which in 0..heads {
        let mut seeks = Vec::new();
        if which == named {
            seeks.push(seek(wanted, PLACES, 2));
        }
        if which + 1 < heads {
            seeks.push(link(which + 1));
        } else {
            let position = |more| Piece::Position {
                mark: ORIGIN,
                more,
                width: 8,
            };
            match random.below(10) {
                0 => {}
                1 => seeks.push(link(0)),
                2 => seeks.push(link(random.below(heads))),
                3 => seeks.push(seek(SEEK_HEAD, PLACES, 2)),
                4 => seeks.push(seek_to(SEEK_HEAD, position(u64::MAX))),
                5 => seeks.push(seek_to(SEEK_HEAD, position(random.below(6)))),
                _ => seeks.push(seek(wanted, PLACES + 1, 2)),
            }
        }
        chain.push(vec![Piece::Mark(HEADS + which), head(seeks)]);
    }
    let within = contents(wanted, random);
    let rows = count(&within);
    let mut others = chain.split_off(1);
    match random.below(3) {
        0 => others.reverse(),
        1 => others = shuffled(others, random),
        _ => {}
    }
    let mut children = chain.concat();
    children.extend(others.concat());
    children.extend([Piece::Mark(PLACES), element(wanted, Vec::new())]);
    children.extend([Piece::Mark(PLACES + 1), element(wanted, within)]);
    Made {
        pieces: recording(children, random),
        wanted,
        rows,
    }
}

/// A chain of up to five heads, of which any has an entry that leads past 2^64 or just not: for
/// the part, or for a further head. The last head that is read is mostly another one.
pub fn far(random: &mut Random) -> Made {
    let wanted = any_part(random);
    let heads = random.between(1, 5);
    let [holder, good] = [random.below(heads), random.below(4 * heads)];
    let past = |random: &mut Random| Piece::Position {
        mark: ORIGIN,
        more: random.one_of(&[0, 0, 1, 2, u64::MAX, u64::MAX - 1]),
        width: 8,
    };
    let mut chain = Vec::new();
    for which in 0..heads {
        let mut seeks = Vec::new();
        if which == holder {
            seeks.push(seek_to(wanted, past(random)));
        }
        if which == good {
            seeks.push(seek(wanted, PLACES, 2));
        }
        let last = which + 1 == heads;
        if random.once_in(if last { 4 } else { 12 }) {
            seeks.push(seek_to(SEEK_HEAD, past(random)));
        } else if !last {
            seeks.push(seek(SEEK_HEAD, HEADS + which + 1, 2));
        }
        let seeks = shuffled(seeks, random);
        chain.push(vec![Piece::Mark(HEADS + which), head(seeks)]);
    }
    let mut behind = chain.split_off(1);
    behind.push(vec![Piece::Mark(PLACES), element(wanted, Vec::new())]);
    let mut children = Vec::new();
    if random.once_in(2) {
        children.push(other(random));
    }
    children.extend(chain.concat());
    children.extend(shuffled(behind, random).concat());
    Made {
        pieces: recording(children, random),
        wanted,
        rows: 0,
    }
}

/// Heads of one or two entries that lead to any of them, or a little beside.
pub fn web(random: &mut Random) -> Made {
    let wanted = any_part(random);
    let count = random.between(2, 8);
    let mut children = Vec::new();
    for which in 0..count {
        let seek = |random: &mut Random| {
            let id = random.one_of(&[SEEK_HEAD, SEEK_HEAD, wanted, SEEK_HEAD]);
            let mark = match (id, random.below(8)) {
                (_, 0) => random.below(count + 2),
                (SEEK_HEAD, 1..=3) => random.below(count),
                (SEEK_HEAD, _) => random.between(which + 1, count) % count,
                _ => random.between(count, count + 1),
            };
            let mark = HEADS + mark;
            let more = match random.below(12) {
                0 => random.between(1, 9),
                1 => 0u64.wrapping_sub(random.between(1, 9)),
                _ => 0,
            };
            let width = 1;
            seek_to(id, Piece::Position { mark, more, width })
        };
        let seeks: Vec<Piece> = (0..random.one_of(&[0, 1, 1, 2]))
            .map(|_| seek(random))
            .collect();
        children.extend([Piece::Mark(HEADS + which), head(seeks)]);
    }
    for which in count..count + 2 {
        let part = element(wanted, vec![leaf(0xEC, &[])]);
        children.extend([Piece::Mark(HEADS + which), part]);
    }
    Made {
        pieces: recording(children, random),
        wanted,
        rows: 1,
    }
}

/// Headers that are none, or that the recording ends in.
pub const NO_HEADERS: [&[u8]; 8] = [
    b"\x0F",
    b"\0\x01",
    b"\xEC",
    b"\xEC\0",
    b"\xEC\0\x01",
    b"\x12\x54\xC3\x67",
    b"\x11\x4D\x9B\x74\0\x01",
    b"\x12\x54\xC3",
];

/// What stands before the segment, the segment, and sometimes more behind it.
fn recording(children: Vec<Piece>, random: &mut Random) -> Vec<Piece> {
    let mut pieces = before(random);
    let near = random.between(1, 9) as i64;
    let wide = random.between(1, 8);
    let size = match random.below(20) {
        0 => Size::Fits(wide),
        1..=2 => Size::Ones(wide),
        3 => Size::Off(-near),
        4 => Size::Off(near),
        5 => Size::Fits(8),
        _ => Size::Fits(1),
    };
    pieces.push(segment(size, children));
    pieces.push(Piece::Mark(BEHIND));
    match random.below(16) {
        0 => pieces.push(element(any_part(random), Vec::new())),
        1 => pieces.push(head(Vec::new())),
        2..=4 => pieces.push(Piece::Bytes(random.one_of(&NO_HEADERS).to_vec())),
        _ => {}
    }
    pieces
}

/// Elements before the segment, which are skipped whatever they are.
pub fn before(random: &mut Random) -> Vec<Piece> {
    let kind = [leaf(0x4282, b"webm"), leaf(0x4287, &[4])];
    let first = element(0x1A45DFA3, kind.to_vec());
    match random.below(12) {
        0..=4 => Vec::new(),
        5..=7 => vec![first],
        8 => vec![first, other(random)],
        9 => vec![other(random), other(random)],
        10 => {
            let id = any_part(random);
            vec![Piece::Mark(BEFORE), element(id, contents(id, random))]
        }
        _ => {
            let named = seek(any_part(random), PLACES, 2);
            vec![first, Piece::Mark(BEFORE), head(vec![named])]
        }
    }
}

/// An element that is skipped.
pub fn other(random: &mut Random) -> Piece {
    let length = random.one_of(&[0, 0, 1, 2, 5, 9]);
    let bytes = random.bytes(length);
    let id = match random.below(12) {
        0..=4 => 0xEC,
        5 => return leaf(0xBF, &random.bytes(4)),
        6 => return element(0x1549A966, pieces(&forest(0x1549A966, 1, random))),
        7 => 0x1F43B675,
        8 => 0x1C53BB6B,
        9 => random.one_of(&[0x40FF, 0x1654AE6A, 0x54C367, 0x81]),
        // A size of all ones is a number too.
        10 if random.once_in(3) => {
            let size = Size::Ones(random.between(1, 8));
            let within = vec![Piece::Bytes(bytes)];
            let id = 0x1F43B675;
            return Piece::Element { id, size, within };
        }
        _ => 0xE7,
    };
    leaf(id, &bytes)
}

/// What a part holds: a good tree of any shape, or what is usual there.
pub fn contents(id: u32, random: &mut Random) -> Vec<Piece> {
    let parent = part_parent(id).unwrap_or(0);
    match random.below(16) {
        0..=2 => Vec::new(),
        3..=8 => usual(id, random),
        9 => vec![refused(random), leaf(0xEC, &[])],
        10 => {
            let depth = random.one_of(&[14, 15, 15, 16, 16, 17]);
            pieces(&chain(parent, depth, false, random))
        }
        _ => {
            let levels = random.between(1, 3);
            pieces(&forest(parent, levels, random))
        }
    }
}

/// The usual content of a part, and once in three a master that is none under the
/// part's own id.
pub fn usual(id: u32, random: &mut Random) -> Vec<Piece> {
    let mut within = match id {
        0x1654AE6B => {
            let video = element(0xE0, vec![leaf(0xB0, &[2, 0x80]), leaf(0xBA, &[1, 0x68])]);
            let codec = leaf(0x86, b"V_VP9");
            vec![element(
                0xAE,
                vec![leaf(0xD7, &[1]), leaf(0x83, &[1]), codec, video],
            )]
        }
        0x1941A469 => {
            let file = [leaf(0x466E, b"a"), leaf(0x4660, b"b/c"), leaf(0x465C, &[0])];
            vec![element(0x61A7, file.to_vec())]
        }
        0x1043A770 => {
            let shown = element(0x80, vec![leaf(0x85, b"A"), leaf(0x437C, b"eng")]);
            let atom = element(0xB6, vec![leaf(0x73C4, &[2]), leaf(0x91, &[]), shown]);
            vec![element(0x45B9, vec![leaf(0x45BC, &[1]), atom])]
        }
        _ => {
            let target = element(0x63C0, vec![leaf(0x68CA, &[50])]);
            let simple = element(0x67C8, vec![leaf(0x45A3, b"A"), leaf(0x4487, b"B")]);
            vec![element(0x7373, vec![target, simple])]
        }
    };
    if random.once_in(3) {
        let master = Node::new(0xE0, Body::Master(Vec::new()));
        within.extend(pieces(&[master]));
    }
    within
}
