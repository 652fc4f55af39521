//! The questions about one header, kind, text or body, which need no table.

use crate::ended::before_zero;
use crate::lent::Lent;
use crate::refusal::{refusal, Refusal};
use crate::Fault;
use tools::ids::{self, DATE_KIND, FLOAT_KIND, INT_KIND, MASTER_KIND, UINT_KIND};

/// The words of the kinds, in the order of their numbers.
const KINDS: [&str; 8] = [
    "master", "int", "uint", "string", "utf8", "binary", "float", "date",
];

pub fn kind(id: u32, parent: u32) -> String {
    format!("kind {}", KINDS[ids::kind(id, parent) as usize - 1])
}

pub fn utf8(bytes: &[u8]) -> &'static str {
    match String::from_utf8(bytes.to_vec()) {
        Ok(_) => "utf8 yes",
        Err(_) => "utf8 no",
    }
}

pub fn header(at: u64, bytes: &[u8], fault: Fault) -> Result<String, Refusal> {
    let length = bytes.len() as u64;
    if at > length {
        return Err(refusal(14, 0).or(fault, &[("header-14-at", at), ("header-14-end", length)]));
    }
    let header = Lent::new(0, fault).header(bytes, at, u64::MAX);
    let [id, header, size] = header.map_err(|bad| {
        let end = if bad.number == 1 { length } else { bad.at };
        bad.or(fault, &[("header-at-zero", 0), ("header-at-end", end)])
    })?;
    Ok(format!("id {id:X} size {size} length {header}"))
}

/// A body that is asked for: its kind, its place and size, and the address of its header.
pub struct Body<'a> {
    pub kind: u64,
    pub at: u64,
    pub size: u64,
    pub address: u64,
    pub bytes: &'a [u8],
}

impl Body<'_> {
    pub fn answer(&self, fault: Fault) -> Result<String, Refusal> {
        self.arguments(fault)?;
        if self.kind == MASTER_KIND {
            return Ok("master".to_string());
        }
        let read =
            Lent::new(0, fault).body(self.kind, self.bytes, self.address, self.at, self.size);
        read.map_err(|bad| self.misplaced(bad, fault))?;
        let body = &self.bytes[self.at as usize..][..self.size as usize];
        Ok(self.value(body, fault))
    }

    /// 14 for a place past the end. The address is not looked at.
    fn arguments(&self, fault: Fault) -> Result<(), Refusal> {
        let length = self.bytes.len() as u64;
        let tested = fault.is("body-14-past") && self.address > length
            || fault.is("body-14-order") && self.address >= self.at;
        if self.at > length || tested {
            let wrong = [
                ("body-14-address", self.address),
                ("body-14-place", self.at),
            ];
            return Err(refusal(14, 0).or(fault, &wrong));
        }
        Ok(())
    }

    /// A refusal as the fault has it.
    fn misplaced(&self, bad: Refusal, fault: Fault) -> Refusal {
        let of = |numbers: &[u64]| {
            if numbers.contains(&bad.number) {
                self.at
            } else {
                bad.at
            }
        };
        bad.or(
            fault,
            &[
                ("body-at-place", self.at),
                ("body-at-zero", 0),
                ("body-at-before", self.at.saturating_sub(2)),
                ("body-at-behind", self.at.wrapping_add(self.size)),
                ("body-at-32", self.address & 0xFFFF_FFFF),
                ("body-at-held", self.address.min(self.bytes.len() as u64)),
                ("body-at-missing", of(&[1])),
                ("body-at-size", of(&[4, 5, 6])),
                ("body-at-text", of(&[7])),
            ],
        )
    }

    /// What the bytes say.
    fn value(&self, body: &[u8], fault: Fault) -> String {
        let number = body.iter().fold(0, |sum, byte| sum << 8 | u64::from(*byte));
        match self.kind {
            INT_KIND => format!("int {}", signed(number, body.len())),
            UINT_KIND => format!("uint {number}"),
            DATE_KIND => format!("date {}", number as i64),
            FLOAT_KIND => {
                let narrow = f64::from(f32::from_bits(number as u32));
                let wide = f64::from_bits(number);
                let float = if body.len() == 4 { narrow } else { wide };
                if float.is_nan() {
                    return "float nan".to_string();
                }
                format!("float {:016X}", float.to_bits())
            }
            ids::BINARY_KIND => format!("bytes {}+{}", self.at, self.size),
            _ if fault.is("body-zero") => format!("text {}+{}", self.at, before_zero(body).len()),
            _ => format!("text {}+{}", self.at, self.size),
        }
    }
}

/// A number of so many bytes with its sign.
fn signed(number: u64, width: usize) -> i64 {
    let unused = 64 - 8 * width as u32;
    if unused == 64 {
        return 0;
    }
    (number << unused) as i64 >> unused
}
