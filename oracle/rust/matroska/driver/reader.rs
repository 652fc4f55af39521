//! The recording as the crate sees it: bytes with a place, which remembers
//! where it was sent.

use std::cell::Cell;
use std::collections::hash_map::DefaultHasher;
use std::collections::BTreeMap;
use std::hash::{Hash, Hasher};
use std::io::{self, ErrorKind, Read, Seek, SeekFrom};

/// The payload of the panic that leaves an endless circle.
pub(crate) struct Circle;

thread_local! {
    /// The place of the reader that moved last. A `Parseable` is handed a
    /// reader of unknown type and can't ask it.
    static PLACE: Cell<u64> = const { Cell::new(0) };
}

/// The place of the reader that moved last on this thread.
pub(crate) fn place() -> u64 {
    PLACE.with(Cell::get)
}

/// Reads and seeks as `io::Cursor` does over a slice: a place past the end is
/// allowed and has nothing to read, a place below 0 or over 2^64-1 is an error.
pub(crate) struct Reader<'a> {
    bytes: &'a [u8],
    place: u64,
    starts: BTreeMap<u64, u64>,
    way: DefaultHasher,
}

impl<'a> Reader<'a> {
    pub(crate) fn at(bytes: &'a [u8], place: u64) -> Reader<'a> {
        PLACE.with(|shared| shared.set(place));
        Reader {
            bytes,
            place,
            starts: BTreeMap::new(),
            way: DefaultHasher::new(),
        }
    }

    /// A number for the way that the reader was sent: two readers that were asked for the same
    /// in the same order have the same.
    pub(crate) fn way(&self) -> u64 {
        self.way.finish()
    }

    pub(crate) fn place(&self) -> u64 {
        self.place
    }

    /// How many times the reader was sent to an address.
    pub(crate) fn starts(&self) -> u64 {
        self.starts.values().sum()
    }

    fn go(&mut self, place: u64) {
        self.place = place;
        PLACE.with(|shared| shared.set(place));
    }
}

impl Read for Reader<'_> {
    fn read(&mut self, buffer: &mut [u8]) -> io::Result<usize> {
        let length = self.bytes.len();
        let from = self.place.min(length as u64) as usize;
        let count = buffer.len().min(length - from);
        (self.place, buffer.len()).hash(&mut self.way);
        buffer[..count].copy_from_slice(&self.bytes[from..from + count]);
        self.go(self.place + count as u64);
        Ok(count)
    }
}

impl Seek for Reader<'_> {
    fn seek(&mut self, to: SeekFrom) -> io::Result<u64> {
        let place = match to {
            SeekFrom::Start(place) => {
                let times = self.starts.entry(place).or_insert(0);
                *times += 1;
                // Which head follows depends on the head's address alone, so
                // one that is sought twice is sought for ever. A third time
                // is awaited because the last seek may be for the part.
                if *times == 3 {
                    std::panic::panic_any(Circle);
                }
                Some(place)
            }
            SeekFrom::Current(by) => self.place.checked_add_signed(by),
            SeekFrom::End(by) => (self.bytes.len() as u64).checked_add_signed(by),
        };
        match place {
            Some(place) => {
                (self.place, place, "seek").hash(&mut self.way);
                self.go(place);
                Ok(place)
            }
            None => Err(io::Error::new(ErrorKind::InvalidInput, "place")),
        }
    }
}
