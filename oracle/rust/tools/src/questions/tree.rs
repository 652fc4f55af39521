//! Trees of elements as a recording holds them: good ones of every shape, and
//! where each of their elements stands.

use crate::random::Random;
use crate::utf8;
use tools::ids::{
    kind, masters, DATE_KIND, FLOAT_KIND, INT_KIND, KINDS, MASTER, MASTER_KIND, STRING_KIND,
    UINT_KIND, UTF8_KIND,
};

/// One element, of which the size is known when it is written.
#[derive(Clone)]
pub struct Node {
    pub id: u32,
    /// The size has so many bytes, or more if it needs them.
    pub width: u64,
    pub body: Body,
}

#[derive(Clone)]
pub enum Body {
    Leaf(Vec<u8>),
    Master(Vec<Node>),
}

/// Where an element stands in a recording.
#[derive(Clone, Copy)]
pub struct Spot {
    pub id: u32,
    pub address: u64,
    pub header: u64,
    pub payload: u64,
}

impl Spot {
    /// The first address behind its header.
    pub fn body(&self) -> u64 {
        self.address + self.header
    }

    /// The first address behind the element.
    pub fn end(&self) -> u64 {
        self.body() + self.payload
    }

    /// The same so many bytes further on.
    pub fn moved(&self, by: u64) -> Spot {
        Spot {
            address: self.address + by,
            ..*self
        }
    }
}

/// The bytes of an id.
pub fn id_bytes(id: u32) -> Vec<u8> {
    let bytes = id.to_be_bytes();
    let zeros = bytes.iter().take_while(|byte| **byte == 0).count();
    bytes[zeros..].to_vec()
}

/// A size of so many bytes with its marker, or of more if it needs them.
pub fn size_bytes(size: u64, width: u64) -> Vec<u8> {
    let needed = (1..8).find(|width| size < 1 << (7 * width)).unwrap_or(8);
    let width = needed.max(width);
    let marked = size | 1 << (7 * width);
    marked.to_be_bytes()[8 - width as usize..].to_vec()
}

impl Node {
    pub fn new(id: u32, body: Body) -> Node {
        Node { id, width: 1, body }
    }
}

/// The bytes of elements one after the other, and in preorder where they stand.
pub fn written(nodes: &[Node]) -> (Vec<u8>, Vec<Spot>) {
    let (mut bytes, mut spots) = (Vec::new(), Vec::new());
    for node in nodes {
        let (payload, within) = match &node.body {
            Body::Leaf(payload) => (payload.clone(), Vec::new()),
            Body::Master(nodes) => written(nodes),
        };
        let size = payload.len() as u64;
        let header = [id_bytes(node.id), size_bytes(size, node.width)].concat();
        let spot = Spot {
            id: node.id,
            address: bytes.len() as u64,
            header: header.len() as u64,
            payload: size,
        };
        spots.push(spot);
        spots.extend(within.iter().map(|inner| inner.moved(spot.body())));
        bytes.extend(header);
        bytes.extend(payload);
    }
    (bytes, spots)
}

/// Some elements under a parent, with masters in them for so many levels.
pub fn forest(parent: u32, levels: u64, random: &mut Random) -> Vec<Node> {
    let count = random.one_of(&[0, 1, 1, 2, 2, 3, 4]);
    let node = |random: &mut Random| {
        if levels == 0 || random.once_in(2) {
            return leaf(parent, random);
        }
        let id = random.one_of(masters(parent));
        wide(id, Body::Master(forest(id, levels - 1, random)), random)
    };
    (0..count).map(|_| node(random)).collect()
}

/// Masters in each other, down to a row of that depth. A few leaves may stand
/// beside them.
pub fn chain(parent: u32, depth: u64, beside: bool, random: &mut Random) -> Vec<Node> {
    let mut nodes = Vec::new();
    if beside && random.once_in(8) {
        nodes.push(leaf(parent, random));
    }
    let id = random.one_of(masters(parent));
    nodes.push(match depth {
        0 if random.once_in(2) => leaf(parent, random),
        0 => wide(id, Body::Master(Vec::new()), random),
        _ => {
            let within = chain(id, depth - 1, beside, random);
            wide(id, Body::Master(within), random)
        }
    });
    if beside && random.once_in(8) {
        nodes.push(leaf(parent, random));
    }
    nodes
}

/// So many small elements in a row.
pub fn row_of(count: u64, parent: u32, random: &mut Random) -> Vec<Node> {
    let node = |random: &mut Random| match random.below(64) {
        0 => leaf(parent, random),
        1..=8 => Node::new(random.one_of(masters(parent)), Body::Master(Vec::new())),
        9..=16 => Node::new(0x83, Body::Leaf(vec![random.byte()])),
        _ => Node::new(0xEC, Body::Leaf(Vec::new())),
    };
    (0..count).map(|_| node(random)).collect()
}

/// A node whose size has more bytes than it needs, once in eight.
pub fn wide(id: u32, body: Body, random: &mut Random) -> Node {
    let width = if random.once_in(8) {
        random.between(1, 8)
    } else {
        1
    };
    Node { id, width, body }
}

/// A leaf with a good body under a parent.
pub fn leaf(parent: u32, random: &mut Random) -> Node {
    let id = leaf_id(parent, random);
    let body = good_body(kind(id, parent), random);
    wide(id, Body::Leaf(body), random)
}

/// An id that is a leaf under a parent: listed, in no set, or a master that is
/// none there.
fn leaf_id(parent: u32, random: &mut Random) -> u32 {
    let id = match random.below(8) {
        0 => unknown_id(random),
        1..=2 => random.one_of(&MASTER),
        _ => {
            let kind = random.between(INT_KIND, DATE_KIND);
            random.one_of(KINDS[kind as usize - 1])
        }
    };
    if kind(id, parent) == MASTER_KIND {
        0xEC
    } else {
        id
    }
}

/// Any id that a header can have.
pub fn unknown_id(random: &mut Random) -> u32 {
    let width = random.between(1, 4);
    let marker = 1 << (7 * width);
    (marker | random.number() % marker) as u32
}

/// A body that is accepted.
pub fn good_body(kind: u64, random: &mut Random) -> Vec<u8> {
    let length = match kind {
        STRING_KIND | UTF8_KIND => return utf8::text(random),
        // One of length 0 is an exception: the crate stops there.
        INT_KIND if !random.once_in(4) => random.between(1, 8),
        INT_KIND => 0,
        UINT_KIND => random.below(9),
        FLOAT_KIND => random.one_of(&[4, 8]),
        DATE_KIND => 8,
        _ => random.one_of(&[0, 1, 2, 3, 9]),
    };
    random.bytes(length)
}

/// A body that is refused, if the kind has one.
pub fn bad_body(kind: u64, random: &mut Random) -> Vec<u8> {
    let length = match kind {
        STRING_KIND | UTF8_KIND => return utf8::damaged(random),
        INT_KIND | UINT_KIND => random.between(9, 12),
        FLOAT_KIND => random.one_of(&[0, 1, 3, 5, 7, 9, 16]),
        DATE_KIND => random.one_of(&[0, 1, 7, 9, 16]),
        _ => random.below(4),
    };
    random.bytes(length)
}
