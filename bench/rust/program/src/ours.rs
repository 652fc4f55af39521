//! Our functions, as the archive exports them.

mod exported {
    use super::{Body, Record, SpeedHeader, SpeedHolder, Sum};

    #[link(name = "speed", kind = "static")]
    extern "C" {
        pub fn speed_kinds(
            ids: *const u32,
            count_of_ids: usize,
            parents: *const u32,
            count_of_parents: usize,
        ) -> u64;
        pub fn speed_kind(id: u32, parent: u32) -> u64;
        pub fn speed_utf8(bytes: *const u8, count: usize) -> bool;
        pub fn speed_read(
            recording: *const u8,
            count_of_bytes: usize,
            start: u64,
            size: u64,
            parent: u32,
            table: *mut u64,
            count_of_numbers: usize,
        ) -> u64;
        pub fn speed_count(
            recording: *const u8,
            count_of_bytes: usize,
            start: u64,
            size: u64,
            parent: u32,
        ) -> u64;
        pub fn speed_part(
            recording: *const u8,
            count_of_bytes: usize,
            part: u32,
            table: *mut u64,
            count_of_numbers: usize,
        ) -> u64;
        pub fn speed_header(recording: *const u8, count_of_bytes: usize, at: u64) -> SpeedHeader;
        pub fn speed_headers(
            recording: *const u8,
            count_of_bytes: usize,
            places: *const u64,
            count_of_places: usize,
        ) -> u64;
        pub fn speed_body(
            recording: *const u8,
            count_of_bytes: usize,
            id: u32,
            parent: u32,
            at: u64,
            size: u64,
        ) -> Body;
        pub fn speed_bodies(
            recording: *const u8,
            count_of_bytes: usize,
            parent: u32,
            ids: *const u32,
            count_of_ids: usize,
            places: *const u64,
            count_of_places: usize,
            sizes: *const u64,
            count_of_sizes: usize,
        ) -> Sum;
        pub fn speed_tag(
            recording: *const u8,
            count_of_bytes: usize,
            start: u64,
            size: u64,
            k: u64,
            table: *mut u64,
            count_of_numbers: usize,
        ) -> Record;
        pub fn speed_simple(
            recording: *const u8,
            count_of_bytes: usize,
            start: u64,
            size: u64,
            k: u64,
            i: u64,
            table: *mut u64,
            count_of_numbers: usize,
        ) -> Record;
        pub fn speed_edition(
            recording: *const u8,
            count_of_bytes: usize,
            start: u64,
            size: u64,
            k: u64,
            table: *mut u64,
            count_of_numbers: usize,
        ) -> Record;
        pub fn speed_chapter(
            recording: *const u8,
            count_of_bytes: usize,
            start: u64,
            size: u64,
            k: u64,
            i: u64,
            table: *mut u64,
            count_of_numbers: usize,
        ) -> Record;
        pub fn speed_display(
            recording: *const u8,
            count_of_bytes: usize,
            start: u64,
            size: u64,
            k: u64,
            i: u64,
            j: u64,
            table: *mut u64,
            count_of_numbers: usize,
        ) -> Record;
        pub fn speed_whose(
            recording: *const u8,
            count_of_bytes: usize,
            start: u64,
            size: u64,
            parent: u32,
            address: u64,
            table: *mut u64,
            count_of_numbers: usize,
        ) -> SpeedHolder;
        pub fn speed_owner(
            recording: *const u8,
            count_of_bytes: usize,
            start: u64,
            size: u64,
            parent: u32,
            address: u64,
        ) -> SpeedHolder;
        pub fn speed_owner_chain(
            recording: *const u8,
            count_of_bytes: usize,
            start: u64,
            size: u64,
            parent: u32,
            address: u64,
            chain: *mut u64,
            count_of_links: usize,
        ) -> SpeedHolder;
    }
}

/// The sum of the kinds' numbers, each id under the parent at the same place.
pub fn kinds(ids: &[u32], parents: &[u32]) -> u64 {
    // Both slices are only read, and only during the call.
    unsafe { exported::speed_kinds(ids.as_ptr(), ids.len(), parents.as_ptr(), parents.len()) }
}

/// The number of one id's kind; parent 0 is none.
pub fn kind(id: u32, parent: u32) -> u64 {
    // Numbers alone cross.
    unsafe { exported::speed_kind(id, parent) }
}

/// Whether bytes are UTF-8.
pub fn utf8(bytes: &[u8]) -> bool {
    // The slice is only read, and only during the call.
    unsafe { exported::speed_utf8(bytes.as_ptr(), bytes.len()) }
}

/// How many elements were read, or the number of the refusal.
pub type Answer = Result<u64, u64>;

/// From here on a number tells a refusal.
const REFUSED: u64 = 1 << 32;

fn answer(told: u64) -> Answer {
    match told.checked_sub(REFUSED) {
        None => Ok(told),
        Some(number) => Err(number),
    }
}

/// Reads a payload's elements into the rows of a table.
pub fn read(recording: &[u8], start: u64, size: u64, parent: u32, table: &mut [u64]) -> Answer {
    // The recording is only read and the table only written, both within their lengths and during the call.
    answer(unsafe {
        exported::speed_read(
            recording.as_ptr(),
            recording.len(),
            start,
            size,
            parent,
            table.as_mut_ptr(),
            table.len(),
        )
    })
}

/// Reads a payload's elements without rows.
pub fn count(recording: &[u8], start: u64, size: u64, parent: u32) -> Answer {
    // The slice is only read, and only during the call.
    answer(unsafe {
        exported::speed_count(recording.as_ptr(), recording.len(), start, size, parent)
    })
}

/// What a search for a part comes to: whether it was found, and how many seek heads were read.
pub type Found = Result<(bool, u64), u64>;

/// From here on a number tells that the part was found.
const FOUND: u64 = 1 << 31;

/// Searches for a part, and reads it into the rows of a table.
pub fn part(recording: &[u8], part: u32, table: &mut [u64]) -> Found {
    // The recording is only read and the table only written, both within their lengths and during the call.
    let told = answer(unsafe {
        exported::speed_part(
            recording.as_ptr(),
            recording.len(),
            part,
            table.as_mut_ptr(),
            table.len(),
        )
    })?;
    Ok((told >= FOUND, told % FOUND))
}

/// A header as it crosses.
#[repr(C)]
struct SpeedHeader {
    refused: u64,
    id: u64,
    size: u64,
    length: u64,
}

/// A header: its id, its payload's size, and how many bytes it has.
#[derive(Debug, PartialEq)]
pub struct Header {
    pub id: u64,
    pub size: u64,
    pub length: u64,
}

/// The header at a place, or the number of the refusal.
pub fn header(recording: &[u8], at: u64) -> Result<Header, u64> {
    // The slice is only read, and only during the call.
    let SpeedHeader {
        refused,
        id,
        size,
        length,
    } = unsafe { exported::speed_header(recording.as_ptr(), recording.len(), at) };
    match refused {
        0 => Ok(Header { id, size, length }),
        number => Err(number),
    }
}

/// The sum of the numbers of all headers at these places.
pub fn headers(recording: &[u8], places: &[u64]) -> u64 {
    // Both slices are only read, and only during the call.
    unsafe {
        exported::speed_headers(
            recording.as_ptr(),
            recording.len(),
            places.as_ptr(),
            places.len(),
        )
    }
}

/// A body as it crosses: 0 or the number of the refusal, the number of its kind, and its value in a field of its own.
#[repr(C)]
pub struct Body {
    pub refused: u64,
    pub kind: u64,
    pub unsigned: u64,
    pub signed: i64,
    pub float: f64,
    pub at: u64,
    pub length: u64,
}

/// The body of an id under a parent, of so many bytes at a place.
pub fn body(recording: &[u8], id: u32, parent: u32, at: u64, size: u64) -> Body {
    // The slice is only read, and only during the call.
    unsafe { exported::speed_body(recording.as_ptr(), recording.len(), id, parent, at, size) }
}

/// What many bodies come to: the sum of unsigned numbers and lengths, and the greatest of the other numbers.
#[repr(C)]
#[derive(Default)]
pub struct Sum {
    unsigned: u64,
    signed: i64,
    float: f64,
}

impl Sum {
    pub fn unsigned(&mut self, value: u64) {
        self.unsigned = self.unsigned.wrapping_add(value);
    }

    pub fn signed(&mut self, value: i64) {
        if self.signed < value {
            self.signed = value;
        }
    }

    pub fn float(&mut self, value: f64) {
        if self.float < value {
            self.float = value;
        }
    }

    /// All in one number, to be compared.
    pub fn number(&self) -> u64 {
        let both = self.unsigned.wrapping_add(self.signed as u64);
        both.wrapping_add(self.float.to_bits())
    }
}

/// The sum of many bodies under one parent.
pub fn bodies(recording: &[u8], parent: u32, ids: &[u32], places: &[u64], sizes: &[u64]) -> Sum {
    // All slices are only read, and only during the call.
    unsafe {
        exported::speed_bodies(
            recording.as_ptr(),
            recording.len(),
            parent,
            ids.as_ptr(),
            ids.len(),
            places.as_ptr(),
            places.len(),
            sizes.as_ptr(),
            sizes.len(),
        )
    }
}

/// A record as it crosses: 0 or the number of the refusal, how many rows its part has, and the sum of its fields.
#[repr(C)]
struct Record {
    refused: u64,
    rows: u64,
    sum: u64,
}

/// A question for one record of a payload.
#[derive(Clone, Copy, Debug)]
pub enum Question {
    Tag(u64),
    Simple(u64, u64),
    Edition(u64),
    Chapter(u64, u64),
    Display(u64, u64, u64),
}

/// How many rows a payload has and what the fields of the record come to, or the number of the refusal.
pub fn record(payload: &[u8], asked: Question, table: &mut [u64]) -> Result<(u64, u64), u64> {
    let (bytes, count, size) = (payload.as_ptr(), payload.len(), payload.len() as u64);
    let (numbers, room) = (table.as_mut_ptr(), table.len());
    // The payload is only read and the table only written, both within their lengths and during the call.
    let said = unsafe {
        match asked {
            Question::Tag(k) => exported::speed_tag(bytes, count, 0, size, k, numbers, room),
            Question::Simple(k, i) => {
                exported::speed_simple(bytes, count, 0, size, k, i, numbers, room)
            }
            Question::Edition(k) => {
                exported::speed_edition(bytes, count, 0, size, k, numbers, room)
            }
            Question::Chapter(k, i) => {
                exported::speed_chapter(bytes, count, 0, size, k, i, numbers, room)
            }
            Question::Display(k, i, j) => {
                exported::speed_display(bytes, count, 0, size, k, i, j, numbers, room)
            }
        }
    };
    match said.refused {
        0 => Ok((said.rows, said.sum)),
        number => Err(number),
    }
}

/// Whose an address is, as it crosses: 0 or the number of the refusal, then three numbers.
#[repr(C)]
struct SpeedHolder {
    refused: u64,
    named: u64,
    in_payload: u64,
    count: u64,
}

/// What holds an address: a row's number or the address of a header, whether the payload holds it, and how many rows
/// there are or how deep the element is.
#[derive(Debug, PartialEq)]
pub struct Holder {
    pub named: u64,
    pub in_payload: bool,
    pub count: u64,
}

fn holder(told: SpeedHolder) -> Result<Holder, u64> {
    let SpeedHolder {
        refused,
        named,
        in_payload,
        count,
    } = told;
    let in_payload = in_payload == 1;
    match refused {
        0 => Ok(Holder {
            named,
            in_payload,
            count,
        }),
        number => Err(number),
    }
}

/// The row that holds an address of a whole payload, and how many rows there are; or the number of the refusal.
pub fn whose(payload: &[u8], parent: u32, address: u64, table: &mut [u64]) -> Result<Holder, u64> {
    // The payload is only read and the table only written, both within their lengths and during the call.
    holder(unsafe {
        exported::speed_whose(
            payload.as_ptr(),
            payload.len(),
            0,
            payload.len() as u64,
            parent,
            address,
            table.as_mut_ptr(),
            table.len(),
        )
    })
}

/// The header's address of the element that holds an address, and its depth; or the number of the refusal.
pub fn owner(payload: &[u8], parent: u32, address: u64) -> Result<Holder, u64> {
    // The slice is only read, and only during the call.
    holder(unsafe {
        exported::speed_owner(
            payload.as_ptr(),
            payload.len(),
            0,
            payload.len() as u64,
            parent,
            address,
        )
    })
}

/// The same, with the masters around it in the chain.
pub fn owner_chain(
    payload: &[u8],
    parent: u32,
    address: u64,
    chain: &mut [u64],
) -> Result<Holder, u64> {
    // The payload is only read and the chain only written, both within their lengths and during the call.
    holder(unsafe {
        exported::speed_owner_chain(
            payload.as_ptr(),
            payload.len(),
            0,
            payload.len() as u64,
            parent,
            address,
            chain.as_mut_ptr(),
            chain.len(),
        )
    })
}
