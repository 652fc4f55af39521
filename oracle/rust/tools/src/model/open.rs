//! The whole recording at once: one walk over the segment's children in both modes, and the five
//! parts that the heads name, each into its own lent table.

use crate::lent::{Lent, Read};
use crate::refusal::{refusal, Refusal};
use crate::search::{Met, Search};
use crate::Fault;
use tools::ids::{CLUSTER, FIVE, SEEK_HEAD, SEGMENT};

/// The answer to a question with tables of so many numbers.
pub fn answer(numbers: [u64; 5], bytes: &[u8], fault: Fault) -> String {
    let numbers = match numbers {
        [info, tracks, files, chapters, tags] if fault.is("open-tables-swapped") => {
            [info, files, tracks, chapters, tags]
        }
        [info, ..] if fault.is("open-tables-info") => [info; 5],
        numbers => numbers,
    };
    let mut tables = numbers.map(|count| Lent::new(count, fault));
    let mut scratch = Lent::new(0, fault);
    let mut opening = Opening {
        search: Search::new(&mut scratch, 0, 0, bytes, fault),
        tables: &mut tables,
        parts: [None; 5],
        longest: [0; 5],
        later: Vec::new(),
        at_fault: None,
    };
    let opened = opening.opened();
    let (heads, parts, longest) = (opening.heads(), opening.parts, opening.longest);
    let at_fault = opening.at_fault;
    match opened {
        Ok(()) => accepted(heads, parts, longest, &mut tables, fault),
        Err(bad) => {
            let told = cleared(bad, at_fault, &mut tables, fault);
            bad.told(scratch.about, told, fault)
        }
    }
}

/// The words of an answer that is accepted.
fn accepted(
    heads: usize,
    parts: [Option<Met>; 5],
    longest: [usize; 5],
    tables: &mut [Lent; 5],
    fault: Fault,
) -> String {
    let mut told = format!("heads {heads}");
    for (number, (name, ..)) in FIVE.iter().enumerate() {
        let table = &mut tables[number];
        let part = parts[number].filter(|met| met.payload > 0 || !fault.is("open-empty-absent"));
        if part.is_none() {
            table.used = 0;
        }
        let place = match part {
            None if fault.is("open-absent-at") => "at 0 size 0 ".to_string(),
            None => "absent ".to_string(),
            Some(met) if fault.is("open-at-header") => {
                format!("at {} size {} ", met.at, met.payload)
            }
            Some(met) => format!("at {} size {} ", met.body(), met.payload),
        };
        // The rows of an earlier part that was longer.
        let longer = longest[number] > table.used && fault.is("open-rows-left");
        let words = table.told(Ok(place));
        told += &match words.strip_suffix(" rest 0") {
            Some(clean) if longer => format!(" {name} {clean} rest dirty"),
            _ => format!(" {name} {words}"),
        };
    }
    told
}

/// Clears the tables after a refusal, and tells of them.
fn cleared(
    bad: Refusal,
    at_fault: Option<usize>,
    tables: &mut [Lent; 5],
    fault: Fault,
) -> &'static str {
    let argument = bad.number == 14;
    for (number, table) in tables.iter_mut().enumerate() {
        let broken = crate::lent::broken(table.numbers.len() as u64, fault);
        let kept = fault.is("open-tables-kept")
            || fault.is("open-tables-one") && at_fault != Some(number)
            || fault.is("open-tables-others") && at_fault == Some(number)
            || fault.is("open-tables-tags") && number == 4
            || fault.is("open-tables-info-kept") && number == 0
            || fault.is("open-broken-kept") && argument && broken
            || fault.is("open-14-kept") && argument;
        if !kept {
            table.emptied();
        }
    }
    if tables.iter().all(Lent::is_clear) {
        " tables 0"
    } else {
        " tables dirty"
    }
}

struct Opening<'a> {
    search: Search<'a>,
    tables: &'a mut [Lent; 5],
    /// The part of each sort that stands so far.
    parts: [Option<Met>; 5],
    /// The most rows that a part of each sort had.
    longest: [usize; 5],
    /// With a fault, the parts that are read later.
    later: Vec<(usize, Met)>,
    /// The table that was being written.
    at_fault: Option<usize>,
}

impl Opening<'_> {
    fn fault(&self) -> Fault {
        self.search.fault
    }

    fn is(&self, name: &str) -> bool {
        self.fault().is(name)
    }

    fn heads(&self) -> usize {
        let heads = self.search.heads.len();
        let found = self.parts.iter().flatten().count();
        match () {
            () if self.is("open-heads-none") => 0,
            () if self.is("open-heads-one") => heads.min(1),
            () if self.is("open-heads-more") => heads + 1,
            () if self.is("open-heads-each") => heads * found.max(1),
            () if self.is("open-heads-found") && found == 0 => 0,
            () => self.search.count(heads),
        }
    }

    /// 14, then the walk.
    fn opened(&mut self) -> Result<(), Refusal> {
        let read = Read::new(0, 0, 0, self.search.bytes);
        let mut arguments = Ok(());
        for (number, table) in self.tables.iter().enumerate() {
            let tested = match number {
                0 => true,
                4 => !self.is("open-14-tags") && !self.is("open-14-first"),
                _ => !self.is("open-14-first"),
            };
            if tested {
                arguments = arguments.and(table.arguments(&read));
            }
        }
        if !self.is("late-14") {
            arguments?;
        }
        if self.is("open-searches") {
            self.searches()?;
        } else {
            self.file()?;
        }
        arguments
    }

    /// Five searches in place of one walk.
    fn searches(&mut self) -> Result<(), Refusal> {
        let mut heads = Vec::new();
        for (number, (_, id, parent)) in FIVE.into_iter().enumerate() {
            let (bytes, fault) = (self.search.bytes, self.search.fault);
            let mut search = Search::new(&mut self.tables[number], id, parent, bytes, fault);
            let told = search.found()?;
            heads = std::mem::take(&mut search.heads);
            let words: Vec<&str> = told.split(' ').collect();
            if let ["at", at, "size", size, ..] = words[..] {
                self.parts[number] = Some(Met {
                    at: at.parse().unwrap_or(0),
                    id,
                    header: 0,
                    payload: size.parse().unwrap_or(0),
                });
            }
        }
        self.search.heads = heads;
        Ok(())
    }

    /// Goes to the segment, and over its children.
    fn file(&mut self) -> Result<(), Refusal> {
        let (live, length) = (self.fault().live, self.search.length());
        let mut at = 0;
        loop {
            let met = self.search.header(at, length.saturating_sub(at))?;
            if met.id == SEGMENT {
                self.children(met)?;
                return self.read_later();
            }
            if let Some(number) = number_of(met.id).filter(|_| self.is("open-before-segment")) {
                self.read(number, met)?;
            }
            at = match live && self.search.unknown(&met) {
                true if met.id == CLUSTER => self.search.ending(&met, length, length)?,
                true => return Err(self.search.endless(&met, 0)),
                false => met.body() + met.payload,
            };
        }
    }

    fn children(&mut self, segment: Met) -> Result<(), Refusal> {
        let live = self.fault().live;
        let known = !live || !self.search.unknown(&segment);
        self.search.segment = segment.at;
        self.search.start = segment.body();
        self.search.end = match known {
            true => segment.body() + segment.payload,
            false => self.search.length(),
        };
        let mut at = self.search.start;
        let mut passed_head = false;
        while at < self.search.end {
            let met = self.search.header(at, self.search.end - at)?;
            if !known && self.search.ends(SEGMENT, met.id) {
                return Ok(());
            }
            let unknown = live && self.search.unknown(&met);
            let number = number_of(met.id);
            let passed = match met.id {
                CLUSTER => true,
                SEGMENT => known,
                _ => number.is_some() && self.is("open-live-part"),
            };
            if unknown && !passed {
                return Err(self.search.endless(&met, segment.at));
            }
            let end = met.body() + met.payload;
            let over = known && end > self.search.end;
            if met.id == SEEK_HEAD && !passed_head && !self.is("open-heads-skipped") {
                if over && self.is("open-overrun-head") {
                    return Err(refusal(3, at));
                }
                self.head(met)?;
                if !self.is("open-behind-walked") && !self.is("open-behind-missing") {
                    return Ok(());
                }
                passed_head = true;
            } else if let Some(number) = number {
                self.met(number, met, over, passed_head)?;
            }
            at = if live && number.is_none() {
                self.search.behind(&met, known)?
            } else if over && !(number.is_some() && self.is("open-overrun-taken")) {
                return Err(self.overrun(&met));
            } else {
                end
            };
        }
        Ok(())
    }

    /// 3 for a child that overruns.
    fn overrun(&self, met: &Met) -> Refusal {
        let wrong = [
            ("open-overrun-segment", self.search.segment),
            ("open-overrun-payload", met.body()),
            ("open-overrun-end", self.search.end),
        ];
        refusal(3, met.at).or(self.fault(), &wrong)
    }

    /// A part that is met among the children.
    fn met(&mut self, number: usize, met: Met, over: bool, behind: bool) -> Result<(), Refusal> {
        let there = self.parts[number].is_some();
        if over && self.is("open-overrun-first") {
            return Err(self.overrun(&met));
        }
        let first = self.is("open-first-wins")
            || self.is("open-first-skipped")
            || number == 0 && self.is("open-first-info")
            || behind && self.is("open-behind-missing");
        let passed = there && first
            || number == 0 && self.is("open-info-skipped")
            || over && self.is("open-overrun-skipped");
        if passed {
            // The first one stands, but for this fault the others are read all the same.
            if self.is("open-first-wins") {
                let length = self.tables[number].numbers.len() as u64;
                let mut other = Lent::new(length, self.fault());
                return other.fill(&reading(number, &met, &self.search));
            }
            return Ok(());
        }
        if self.is("open-last-read") {
            self.later.retain(|(own, _)| *own != number);
            self.later.push((number, met));
            return Ok(());
        }
        self.read(number, met)
    }

    /// With a fault, reads what stands after the walk.
    fn read_later(&mut self) -> Result<(), Refusal> {
        for (number, met) in std::mem::take(&mut self.later) {
            self.read(number, met)?;
        }
        Ok(())
    }

    /// Reads a part into its table, in place of an earlier one.
    fn read(&mut self, number: usize, met: Met) -> Result<(), Refusal> {
        let fault = self.fault();
        self.at_fault = Some(number);
        let table = &self.tables[number];
        let used = if fault.is("open-rows-gather") {
            table.used
        } else {
            0
        };
        let read = reading(number, &met, &self.search);
        let table = &mut self.tables[number];
        table.used = used;
        table.fault = fault.plain_with("live-part-plain");
        let filled = table.fill(&read);
        filled.map_err(|bad| bad.or(fault, &[("at-part-inner", met.at)]))?;
        self.longest[number] = self.longest[number].max(table.used);
        self.parts[number] = Some(met);
        self.at_fault = None;
        Ok(())
    }

    /// Follows a head and looks the five up.
    fn head(&mut self, head: Met) -> Result<(), Refusal> {
        self.read_later()?;
        self.search.chain(head)?;
        if self.is("open-before-forgotten") {
            self.parts = [None; 5];
        }
        let mut order = match () {
            () if self.is("open-info-last") => vec![1, 2, 3, 4, 0],
            () if self.is("open-tracks-first") => vec![1, 0, 2, 3, 4],
            () if self.is("open-chapters-first") => vec![0, 1, 3, 2, 4],
            () if self.is("open-tags-first") => vec![0, 1, 2, 4, 3],
            () if self.is("open-order-reversed") => vec![4, 3, 2, 1, 0],
            () => vec![0, 1, 2, 3, 4],
        };
        if self.is("open-order-file") {
            order.sort_by_key(|number| {
                let entry = self.search.entry(FIVE[*number].1);
                entry.map_or(0, |entry| entry.position)
            });
        }
        let mut found = Vec::new();
        if self.is("open-eights-first") {
            for number in order.clone() {
                if let Some(entry) = self.search.entry(FIVE[number].1) {
                    self.search.sum(entry)?;
                }
            }
        }
        for number in order {
            let id = FIVE[number].1;
            let Some(entry) = self.search.entry(id) else {
                if self.is("open-unnamed-forgotten") {
                    self.parts[number] = None;
                }
                continue;
            };
            if self.parts[number].is_some() && self.is("open-sought-kept") {
                continue;
            }
            let at = self.search.sum(entry)?;
            let met = self.search.sought(at, entry)?;
            if met.id != id {
                match () {
                    () if self.is("open-stale-kept") => continue,
                    () if self.is("open-stale-absent") => {
                        self.parts[number] = None;
                        continue;
                    }
                    () => return Err(self.search.stale(&met)),
                }
            }
            let end = met.body() + met.payload;
            let inside = self.search.start <= met.at && end <= self.search.end;
            if !inside && self.is("open-sought-outside") {
                return Err(refusal(3, met.at));
            }
            if self.is("open-headers-first") {
                found.push((number, met));
                continue;
            }
            self.read(number, met)?;
        }
        for (number, met) in found {
            self.read(number, met)?;
        }
        Ok(())
    }
}

/// The read of a part.
fn reading<'a>(number: usize, met: &Met, search: &Search<'a>) -> Read<'a> {
    let (_, id, parent) = FIVE[number];
    let parent = match number {
        0 if search.fault.is("open-info-full") => SEGMENT,
        0 => parent,
        _ if search.fault.is("open-parts-small") => id,
        _ => parent,
    };
    Read::new(met.body(), met.payload, parent, search.bytes)
}

/// Which of the five an id is.
fn number_of(id: u32) -> Option<usize> {
    FIVE.iter().position(|(_, part, _)| *part == id)
}
