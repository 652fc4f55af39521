//! Asks whose an address is, with a table and without: the answers first, then the times. All ways are ours.

use crate::inputs::Chance;
use crate::ours::{self, Holder};
use crate::payloads::{nested, SIBLING};
use crate::reads::{NUMBERS, WIDTH};
use crate::searches::chapters;
use crate::timing::Report;
use matroska::opened::ids::*;
use std::cell::RefCell;
use std::hint::black_box;
use std::process::exit;

/// How many elements each payload has.
const ELEMENTS: usize = 4_096;

/// Which elements are asked for: at the front, at the middle, at the end, and two between.
const PLACES: [usize; 5] = [1, 16, 512, 2_048, 4_096];

/// The most links of a chain.
const LINKS: usize = 16;

/// A payload, the id that it is read under, and its rows as `read` gives them.
pub struct Addresses {
    name: &'static str,
    bytes: Vec<u8>,
    parent: u32,
    rows: Vec<Row>,
}

/// What a row tells of its element, but for its id and its payload's kind.
struct Row {
    parent: usize,
    address: u64,
    /// Where its header ends, and its payload.
    body: u64,
    end: u64,
    master: bool,
    depth: u64,
    after: usize,
}

impl Row {
    fn new(row: &[u64]) -> Row {
        let body = row[2] + row[3];
        Row {
            parent: row[1] as usize,
            address: row[2],
            body,
            end: body + row[4],
            master: row[5] == 1,
            depth: row[6],
            after: row[7] as usize,
        }
    }

    /// The last byte that is its own: of a master its header's, of a leaf its payload's if it has one.
    fn last(&self) -> u64 {
        let end = if self.master { self.body } else { self.end };
        end - 1
    }
}

pub fn addresses() -> Vec<Addresses> {
    let all = [
        (
            "chapters",
            chapters(ELEMENTS, &mut Chance::new(11)),
            EDITIONENTRY,
        ),
        ("siblings", SIBLING.repeat(ELEMENTS), SEGMENT),
        ("depth 15", nested(15).repeat(ELEMENTS / 16), EDITIONENTRY),
    ];
    all.map(|(name, bytes, parent)| {
        let mut table = vec![0; NUMBERS];
        let size = bytes.len() as u64;
        let read = ours::read(&bytes, 0, size, parent, &mut table);
        if read != Ok(ELEMENTS as u64) {
            eprintln!("bench: addresses, {name}: {read:?} elements, {ELEMENTS} were expected");
            exit(1);
        }
        Addresses {
            name,
            bytes,
            parent,
            rows: table.chunks(WIDTH).map(Row::new).collect(),
        }
    })
    .into()
}

impl Addresses {
    /// How many headers stand on the way to an address: what ends before it is passed over with all that it holds.
    fn headers(&self, address: u64) -> usize {
        let (mut row, mut headers) = (0, 0);
        loop {
            let here = &self.rows[row];
            headers += 1;
            if here.end <= address {
                row = here.after;
            } else if here.master && here.body <= address {
                row += 1;
            } else {
                return headers;
            }
        }
    }

    /// The addresses of a row's masters, the outermost first, its own, and zeros.
    fn chain(&self, mut row: usize) -> [u64; LINKS] {
        let mut chain = [0; LINKS];
        loop {
            let Row {
                parent,
                address,
                depth,
                ..
            } = self.rows[row];
            chain[depth as usize] = address;
            if parent == 0 {
                return chain;
            }
            row = parent - 1;
        }
    }
}

/// The first and the last byte of every element are its own by all three, and the byte behind the payload is 15.
pub fn check(addresses: &[Addresses]) {
    for asked in addresses {
        for (number, row) in asked.rows.iter().enumerate() {
            let owned = |in_payload| Holder {
                named: row.address,
                in_payload,
                count: row.depth,
            };
            let chain = asked.chain(number);
            for address in [row.address, row.last()] {
                let in_payload = row.body <= address;
                let held = Holder {
                    named: number as u64,
                    in_payload,
                    count: ELEMENTS as u64,
                };
                let own = (Ok(owned(in_payload)), Ok(owned(in_payload)), chain);
                same(asked, address, Ok(held), own);
            }
        }
        let past = asked.bytes.len() as u64;
        same(asked, past, Err(15), (Err(15), Err(15), [0; LINKS]));
    }
}

/// What one call tells.
type Told = Result<Holder, u64>;

fn same(asked: &Addresses, address: u64, held: Told, own: (Told, Told, [u64; LINKS])) {
    let Addresses {
        name,
        bytes,
        parent,
        ..
    } = asked;
    let whose = ours::whose(bytes, *parent, address, &mut vec![0; NUMBERS]);
    let owner = ours::owner(bytes, *parent, address);
    let mut chain = [u64::MAX; LINKS];
    let chained = ours::owner_chain(bytes, *parent, address, &mut chain);
    let told = (owner, chained, chain);
    if whose != held || told != own {
        eprintln!(
            "bench: addresses, {name}, byte {address}: whose_byte {whose:?}, owner and chain {told:?}; \
             {held:?} and {own:?} were expected"
        );
        exit(1);
    }
}

pub fn time(addresses: &Addresses, report: &mut Report) {
    let Addresses {
        name,
        bytes,
        parent,
        rows,
    } = addresses;
    let table = RefCell::new(vec![0; NUMBERS]);
    let chain = RefCell::new([0; LINKS]);
    let mut passed = Vec::new();
    let mut took = Vec::new();
    for place in PLACES {
        let address = rows[place - 1].last();
        let headers = addresses.headers(address);
        let told = |told: Told| u64::from(black_box(told).is_ok());
        let mut ways = report.compare_ours(
            &format!("address, {name}, element {place}"),
            &format!("a question (headers looked at: {headers})"),
            &[
                (
                    "owner",
                    Box::new(|| told(ours::owner(black_box(bytes), *parent, address))),
                ),
                (
                    "owner_chain",
                    Box::new(|| {
                        let chain = &mut chain.borrow_mut()[..];
                        told(ours::owner_chain(black_box(bytes), *parent, address, chain))
                    }),
                ),
                (
                    "whose_byte",
                    Box::new(|| {
                        let table = &mut table.borrow_mut();
                        told(ours::whose(black_box(bytes), *parent, address, table))
                    }),
                ),
            ],
        );
        // whose_byte reads every element, wherever the address is.
        ways.truncate(2);
        passed.push(headers);
        took.push(ways);
    }
    report.grow(&format!("address, {name}"), &passed, &took);
}
