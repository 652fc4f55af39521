//! Info and its families, told like the other records. Its payload is the record.

use crate::records::{Master, Table};
use crate::refusal::{refusal, Refusal};
use tools::ids::*;

/// Faults that swap the ids of two fields.
const SWAPPED: [(&str, u32, u32); 7] = [
    ("info-uid-previous", INFO_UID, INFO_PREVIOUS),
    ("info-uid-family", INFO_UID, INFO_FAMILY),
    ("info-previous-next", INFO_PREVIOUS, INFO_NEXT),
    ("info-title-muxing", INFO_TITLE, INFO_MUXING),
    ("info-muxing-writing", INFO_MUXING, INFO_WRITING),
    ("info-file-title", INFO_TITLE, 0x7384),
    ("info-title-name", INFO_TITLE, TRACK_NAME),
];

const WHOLE: Master = Master { row: None };

impl Table<'_> {
    fn info_id(&self, id: u32) -> u32 {
        let swapped = SWAPPED.iter().find(|(fault, ..)| self.fault.is(fault));
        match swapped {
            Some((_, one, other)) if *one == id => *other,
            Some((_, one, other)) if *other == id => *one,
            _ => id,
        }
    }

    /// The rows of the families.
    fn families(&self) -> Vec<usize> {
        let deep = self.fault.is("info-families-deep") || self.fault.is("any-depth");
        let below = self.below(WHOLE).into_iter();
        let direct = below.filter(|(_, direct)| *direct || deep);
        let mut rows: Vec<usize> = direct
            .map(|(row, _)| row)
            .filter(|row| self.id(*row) == self.info_id(INFO_FAMILY))
            .collect();
        if self.fault.is("info-families-empty") {
            rows.retain(|row| !self.body(*row).is_empty());
        }
        if self.fault.is("info-families-last") {
            rows = rows.split_off(rows.len().saturating_sub(1));
        }
        if self.fault.is("info-families-reversed") {
            rows.reverse();
        }
        rows
    }

    pub fn info(&self) -> String {
        let fault = self.fault;
        let field = |id| self.field(WHOLE, self.info_id(id));
        let (duration, scale) = (field(INFO_DURATION), field(INFO_SCALE));
        let number = scale.map(|row| self.number(row));
        let length = duration.map(|row| self.length(row));
        let positive = length.is_some_and(|length| length > 0.0);
        let shown = number.unwrap_or(1_000_000) as f64 * length.unwrap_or(0.0);
        let mut duration = match duration {
            None if fault.is("info-duration-none") => "0000000000000000".to_string(),
            Some(_) if fault.is("info-duration-scaled") => (shown as u64).to_string(),
            Some(_) if fault.is("info-duration-product") => format!("{:016X}", shown.to_bits()),
            Some(_) if fault.is("info-duration-positive") && !positive => "unset".to_string(),
            Some(row) => self.float(row, "duration"),
            None => "unset".to_string(),
        };
        let mut scale = match number {
            None if fault.is("info-scale-default") => "1000000".to_string(),
            Some(0) if fault.is("info-scale-zero") => "unset".to_string(),
            Some(0) if fault.is("info-scale-zero-default") => "1000000".to_string(),
            _ => self.number_told(scale),
        };
        if fault.is("info-scale-duration") {
            (duration, scale) = (scale, duration);
        }
        let count = self.families().len();
        let families = match () {
            () if fault.is("info-families-more") => count + 1,
            () if fault.is("info-families-less") => count.saturating_sub(1),
            () => count,
        };
        let text = |id| self.range(field(id));
        format!(
            "uid {} previous {} next {} families {families} title {} duration {duration} \
             scale {scale} date {} muxing {} writing {}",
            text(INFO_UID),
            text(INFO_PREVIOUS),
            text(INFO_NEXT),
            text(INFO_TITLE),
            self.date(field(INFO_DATE)),
            text(INFO_MUXING),
            text(INFO_WRITING)
        )
    }

    /// A duration as a number.
    fn length(&self, row: usize) -> f64 {
        match *self.body(row) {
            [a, b, c, d] => f64::from(f32::from_be_bytes([a, b, c, d])),
            _ => f64::from_bits(self.number(row)),
        }
    }

    fn date(&self, field: Option<usize>) -> String {
        let Some(row) = field else {
            let zero = self.fault.is("info-date-zero") || self.fault.is("number-zero");
            return if zero { "0" } else { "unset" }.to_string();
        };
        let bytes = self.body(row).try_into().unwrap_or([0; 8]);
        let date = i64::from_be_bytes(bytes);
        match () {
            () if self.fault.is("info-date-unsigned") => u64::from_be_bytes(bytes).to_string(),
            () if self.fault.is("info-date-little") => i64::from_le_bytes(bytes).to_string(),
            () if self.fault.is("info-date-seconds") => (date / 1_000_000_000).to_string(),
            () if self.fault.is("info-date-narrow") => (date as i32).to_string(),
            () if self.fault.is("info-date-1970") => {
                date.wrapping_add(978_307_200_000_000_000).to_string()
            }
            () if self.fault.is("info-date-unset") && date == 0 => "unset".to_string(),
            () => date.to_string(),
        }
    }

    /// The family with an index.
    pub fn family(&self, index: u64) -> Result<String, Refusal> {
        let rows = self.families();
        if self.fault.is("family-missing") && index >= rows.len() as u64 {
            return Ok("uid unset".to_string());
        }
        if self.fault.is("family-none-14") && rows.is_empty() {
            return Err(refusal(14, 0));
        }
        let row = self.nth(&rows, index, false)?;
        Ok(format!("uid {}", self.range(Some(row))))
    }
}
