//! Reads a payload and finds out where each element of the crate's tree
//! stands. The tree holds no addresses, only whole sizes in order.

use super::{call, kind_number, Failed, Outcome, Reader};
use crate::ebml::{self, Element, ElementType};

/// One row: what the tree says of an element, and where it stands.
pub(crate) struct Row {
    pub(crate) id: u32,
    pub(crate) parent: u64,
    pub(crate) address: u64,
    pub(crate) header: u64,
    pub(crate) payload: u64,
    pub(crate) kind: u8,
    pub(crate) depth: u64,
    pub(crate) after: u64,
}

/// The tree that the crate reads, and its rows in preorder.
pub(crate) fn read(
    start: u64,
    size: u64,
    parent: u32,
    bytes: &[u8],
) -> Outcome<(Vec<Element>, Vec<Row>)> {
    let mut reader = Reader::at(bytes, start);
    let elements = call(|| Element::parse_master(&mut reader, size, Some(parent)))?;
    let rows = rows(&elements, start, bytes)?;
    Ok((elements, rows))
}

/// The rows of a tree whose first element stands at `start`.
pub(crate) fn rows(elements: &[Element], start: u64, bytes: &[u8]) -> Outcome<Vec<Row>> {
    let mut rows = Vec::new();
    walk(elements, start, 0, 0, bytes, &mut rows)?;
    Ok(rows)
}

/// Elements stand one after the other, a master's children after its header.
/// The crate's own header reader at each address must agree with the tree. When
/// all below an element has its rows, the next row is the first one behind it.
fn walk(
    elements: &[Element],
    mut address: u64,
    parent: u64,
    depth: u64,
    bytes: &[u8],
    rows: &mut Vec<Row>,
) -> Outcome<()> {
    for element in elements {
        let header = ebml::read_element_id_size(&mut Reader::at(bytes, address));
        let (id, payload, header) = header.map_err(|_| Failed::Fault)?;
        if id != element.id || header + payload != element.size {
            return Err(Failed::Fault);
        }
        let own = rows.len();
        rows.push(Row {
            id,
            parent,
            address,
            header,
            payload,
            kind: kind_number(&element.val),
            depth,
            after: 0,
        });
        if let ElementType::Master(children) = &element.val {
            let body = address + header;
            walk(children, body, own as u64 + 1, depth + 1, bytes, rows)?;
        }
        rows[own].after = rows.len() as u64;
        address += element.size;
    }
    Ok(())
}

/// The rows as they stand in an answer. The crate has no lent table, so
/// nothing is left over behind the rows.
pub(crate) fn table(rows: &[Row]) -> String {
    use std::fmt::Write;

    let mut told = format!("rows {}", rows.len());
    for row in rows {
        let written = write!(
            told,
            " / {:X} {} {} {} {} {} {} {}",
            row.id,
            row.parent,
            row.address,
            row.header,
            row.payload,
            row.kind,
            row.depth,
            row.after
        );
        written.expect("a string takes everything");
    }
    told.push_str(" rest 0");
    told
}
