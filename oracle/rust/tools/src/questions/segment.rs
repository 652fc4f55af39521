//! Recordings with a segment, made of pieces: a seek head's entries know the
//! places of the elements that they name.

use crate::random::Random;
use crate::tree::{id_bytes, size_bytes, Body, Node, Spot};
use std::collections::BTreeMap;
use tools::ids::{SEEK, SEEK_HEAD, SEEK_ID, SEEK_POSITION, SEGMENT};

/// A piece of a recording.
#[derive(Clone)]
pub enum Piece {
    Bytes(Vec<u8>),
    Element {
        id: u32,
        size: Size,
        within: Vec<Piece>,
    },
    /// A name for the address of what follows.
    Mark(u64),
    /// A mark's distance from the segment's payload and so much more, in so many
    /// bytes. A mark that stands nowhere is at address 0.
    Position {
        mark: u64,
        more: u64,
        width: u64,
    },
}

/// What an element's size says.
#[derive(Clone, Copy)]
pub enum Size {
    /// Its length, in so many bytes or more.
    Fits(u64),
    /// All ones, in so many bytes.
    Ones(u64),
    /// So much more than its length, or less.
    Off(i64),
}

/// The mark of the segment's payload.
const START: u64 = 0;

/// The mark of address 0.
pub const ORIGIN: u64 = u64::MAX;

pub fn element(id: u32, within: Vec<Piece>) -> Piece {
    Piece::Element {
        id,
        size: Size::Fits(1),
        within,
    }
}

pub fn leaf(id: u32, body: &[u8]) -> Piece {
    element(id, vec![Piece::Bytes(body.to_vec())])
}

/// A segment with its children.
pub fn segment(size: Size, mut children: Vec<Piece>) -> Piece {
    children.insert(0, Piece::Mark(START));
    Piece::Element {
        id: SEGMENT,
        size,
        within: children,
    }
}

/// A head of some Seeks.
pub fn head(seeks: Vec<Piece>) -> Piece {
    element(SEEK_HEAD, seeks)
}

/// A Seek that names an id and the place of a mark.
pub fn seek(id: u32, mark: u64, width: u64) -> Piece {
    seek_to(
        id,
        Piece::Position {
            mark,
            more: 0,
            width,
        },
    )
}

pub fn seek_to(id: u32, position: Piece) -> Piece {
    element(
        SEEK,
        vec![
            leaf(SEEK_ID, &id.to_be_bytes()),
            element(SEEK_POSITION, vec![position]),
        ],
    )
}

/// The elements of a tree.
pub fn pieces(nodes: &[Node]) -> Vec<Piece> {
    let piece = |node: &Node| Piece::Element {
        id: node.id,
        size: Size::Fits(node.width),
        within: match &node.body {
            Body::Leaf(bytes) => vec![Piece::Bytes(bytes.clone())],
            Body::Master(nodes) => pieces(nodes),
        },
    };
    nodes.iter().map(piece).collect()
}

/// How many elements some pieces are.
pub fn count(pieces: &[Piece]) -> u64 {
    let one = |piece: &Piece| match piece {
        Piece::Element { within, .. } => 1 + count(within),
        _ => 0,
    };
    pieces.iter().map(one).sum()
}

/// The bytes of some pieces, and in preorder where their elements stand.
pub fn recorded(pieces: &[Piece]) -> (Vec<u8>, Vec<Spot>) {
    // The first time no mark is known. That changes no length.
    let mut first = Writer::default();
    first.write(pieces);
    let mut second = Writer {
        known: first.marks,
        ..Writer::default()
    };
    second.write(pieces);
    (second.bytes, second.spots)
}

#[derive(Default)]
struct Writer {
    known: BTreeMap<u64, u64>,
    marks: BTreeMap<u64, u64>,
    bytes: Vec<u8>,
    spots: Vec<Spot>,
}

impl Writer {
    fn write(&mut self, pieces: &[Piece]) {
        for piece in pieces {
            let address = self.bytes.len() as u64;
            match piece {
                Piece::Bytes(bytes) => self.bytes.extend(bytes),
                Piece::Mark(mark) => drop(self.marks.insert(*mark, address)),
                Piece::Position { mark, more, width } => {
                    let place = |mark| self.known.get(mark).copied().unwrap_or(0);
                    let number = place(mark).wrapping_sub(place(&START)).wrapping_add(*more);
                    let all = [[0; 8], number.to_be_bytes()].concat();
                    self.bytes.extend(&all[16 - *width as usize..]);
                }
                Piece::Element { id, size, within } => {
                    let payload = length(within);
                    let header = [id_bytes(*id), said(*size, payload)].concat();
                    self.spots.push(Spot {
                        id: *id,
                        address,
                        header: header.len() as u64,
                        payload,
                    });
                    self.bytes.extend(header);
                    self.write(within);
                }
            }
        }
    }
}

/// The bytes of a size.
fn said(size: Size, payload: u64) -> Vec<u8> {
    match size {
        Size::Fits(width) => size_bytes(payload, width),
        Size::Ones(width) => size_bytes((1 << (7 * width)) - 1, width),
        Size::Off(by) => size_bytes(payload.saturating_add_signed(by), 1),
    }
}

/// The length of some pieces.
fn length(pieces: &[Piece]) -> u64 {
    let one = |piece: &Piece| match piece {
        Piece::Bytes(bytes) => bytes.len() as u64,
        Piece::Mark(_) => 0,
        Piece::Position { width, .. } => *width,
        Piece::Element { id, size, within } => {
            let payload = length(within);
            (id_bytes(*id).len() + said(*size, payload).len()) as u64 + payload
        }
    };
    pieces.iter().map(one).sum()
}

/// Some things in another order.
pub fn shuffled<T>(mut things: Vec<T>, random: &mut Random) -> Vec<T> {
    for i in (1..things.len()).rev() {
        things.swap(i, random.below(i as u64 + 1) as usize);
    }
    things
}
