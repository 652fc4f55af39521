//! A refusal of the model: its number, and its address as the fault has it.

use crate::Fault;

/// A number and the address that it carries.
#[derive(Clone, Copy)]
pub struct Refusal {
    pub number: u64,
    pub at: u64,
}

pub fn refusal(number: u64, at: u64) -> Refusal {
    Refusal { number, at }
}

impl Refusal {
    /// The same with the address that stands beside the fault's name, if it is one of these.
    pub fn or(self, fault: Fault, wrong: &[(&str, u64)]) -> Refusal {
        let found = wrong.iter().find(|(name, _)| fault.is(name));
        refusal(self.number, found.map_or(self.at, |(_, at)| *at))
    }

    /// The words of the answer, with the id that belongs to it and what is told of the table.
    pub fn told(self, id: Option<u32>, table: &str, fault: Fault) -> String {
        let argument = self.number == 14 || self.number == 15;
        let at = match () {
            () if fault.is("at-none") => String::new(),
            () if fault.is("at-none-14") && argument => String::new(),
            () if fault.is("at-zero") => " at 0".to_string(),
            () if fault.is("at-32") => format!(" at {}", self.at & 0xFFFF_FFFF),
            () if fault.is("at-hex") => format!(" at {:X}", self.at),
            () => format!(" at {}", self.at),
        };
        let number = self.number;
        let id = id.map_or(String::new(), |id| format!(" {id:X}"));
        if fault.is("at-behind") {
            return format!("refused {number}{id}{table}{at}");
        }
        format!("refused {number}{id}{at}{table}")
    }
}
