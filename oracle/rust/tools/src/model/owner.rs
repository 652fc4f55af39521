//! The address question without a table: each master on the path to the address is a call of
//! its own, which knows where that master ends.

use crate::lent::{id_width, unknown, Lent, Read};
use crate::places::{nowhere, outside};
use crate::refusal::{refusal, Refusal};
use crate::Fault;
use question::{MOST_NUMBERS, MOST_ROWS};
use std::cell::Cell;
use tools::ids::{self, BINARY_KIND, MASTER_KIND};

/// 14, 15, then the path.
pub fn owner(read: &Read, address: u64, fault: Fault) -> Result<String, Refusal> {
    let (outside, nowhere) = (outside(read, address, fault), nowhere(read, address, fault));
    if outside && fault.is("early-15") {
        return Err(nowhere);
    }
    let lent = Lent::new(0, fault);
    lent.arguments(read)?;
    if outside && !fault.is("late-15") {
        return Err(nowhere);
    }
    if outside || fault.is("owner-full") {
        Lent::new(MOST_NUMBERS, fault).read(read)?;
    }
    if outside {
        return Err(nowhere);
    }
    let length = read.bytes.len() as u128;
    let end = match u128::from(read.start) + u128::from(read.size) {
        _ if fault.is("owner-end-wraps") => u128::from(read.start.wrapping_add(read.size)),
        end if fault.is("owner-end-held") => end.min(length),
        end => end,
    };
    let path = Path {
        bytes: read.bytes,
        start: read.start,
        address,
        lent,
        headers: Cell::new(0),
        fault,
    };
    path.within(&Master {
        id: read.parent,
        at: read.start,
        from: read.start,
        end,
        depth: 0,
        outer: None,
    })
}

/// The way to an address.
struct Path<'a> {
    bytes: &'a [u8],
    start: u64,
    address: u64,
    lent: Lent,
    /// How many headers were read.
    headers: Cell<u64>,
    fault: Fault,
}

/// A master on the way, or the whole payload.
struct Master<'a> {
    id: u32,
    /// The address of its header, or where the payload starts.
    at: u64,
    /// Where its first child stands.
    from: u64,
    /// The first address behind it, which may be past 2^64.
    end: u128,
    /// The depth of its children.
    depth: u64,
    outer: Option<&'a Master<'a>>,
}

/// A child of one.
struct Child {
    id: u32,
    kind: u64,
    at: u64,
    /// The first address behind its header, and that behind the child.
    body: u64,
    end: u64,
}

impl Path<'_> {
    /// Reads the children of a master up to the one that holds the address.
    fn within(&self, master: &Master) -> Result<String, Refusal> {
        let mut at = master.from;
        let mut before = master.at;
        while u128::from(at) < master.end {
            let child = self.child(at, before, master)?;
            let limits = self.depth(&child, master);
            if !self.fault.is("owner-depth-late") {
                limits?;
            }
            let over = self.overrun(&child, master);
            let late = self.fault.is("owner-overrun-late") && self.gone_into(&child);
            if !late {
                over?;
            }
            limits?;
            if let Some(told) = self.told(&child, master) {
                let told = told?;
                if self.fault.is("owner-reads-on") {
                    self.rest(child.end, master)?;
                }
                over?;
                return Ok(told);
            }
            self.skipped(&child)?;
            (before, at) = (child.at, child.end);
        }
        // Only a faulty reader comes to the end.
        Err(refusal(15, 0))
    }

    /// The header at a place.
    fn child(&self, at: u64, before: u64, master: &Master) -> Result<Child, Refusal> {
        if self.fault.is("owner-depth-first") && master.depth > 15 {
            return Err(refusal(12, at));
        }
        self.headers.set(self.headers.get() + 1);
        if self.fault.is("owner-rows") && self.headers.get() > MOST_ROWS {
            return Err(refusal(13, at));
        }
        let left = u64::try_from(master.end - u128::from(at)).unwrap_or(u64::MAX);
        let header = self.lent.header(self.bytes, at, left);
        let [id, header, size] = header.map_err(|bad| {
            let wrong = [
                ("at-header-master", master.at),
                ("at-header-before", before),
            ];
            bad.or(self.fault, &wrong)
        })?;
        let width = header - id_width(id);
        if self.fault.is("owner-ones") && size == (1 << (7 * width)) - 1 {
            return Err(refusal(3, at));
        }
        let endless = self.fault.live && unknown([id, header, size], self.fault);
        let id = id as u32;
        let child = Child {
            id,
            kind: self.kind(id, master),
            at,
            body: at + header,
            end: at + header + size,
        };
        if endless {
            self.endless(&child, master)?;
        }
        Ok(child)
    }

    /// 17 for a child of unknown size.
    fn endless(&self, child: &Child, master: &Master) -> Result<(), Refusal> {
        let taken = match child.id {
            ids::CLUSTER => self.fault.is("live-owner-cluster"),
            ids::SEGMENT => self.fault.is("live-owner-segment"),
            _ => child.end <= self.address && self.fault.is("live-owner-held"),
        };
        if taken {
            return Ok(());
        }
        if self.fault.is("live-owner-12") {
            self.depth(child, master)?;
        }
        if self.fault.is("live-owner-3") {
            self.overrun(child, master)?;
        }
        let wrong = [
            ("live-at-master", master.at),
            ("live-at-payload", child.body),
        ];
        Err(refusal(17, child.at).or(self.fault, &wrong))
    }

    /// The kind of a child. A master's own id is what its children have as their parent.
    fn kind(&self, id: u32, master: &Master) -> u64 {
        let outermost = master.all().last().map_or(0, |outer| outer.id);
        let special = master.all().filter(|own| ids::SPECIAL.contains(&own.id));
        let parent = match () {
            () if self.fault.is("outer-parent") => outermost,
            () if self.fault.is("full-set") => 0,
            () if self.fault.is("small-set-deep") => special.last().map_or(master.id, |own| own.id),
            () => master.id,
        };
        ids::kind(id, parent)
    }

    /// 12 for a child that is too deep.
    fn depth(&self, child: &Child, master: &Master) -> Result<(), Refusal> {
        let deepest = match () {
            () if self.fault.is("depth-17") => 16,
            () if self.fault.is("depth-15") => 14,
            () if self.fault.is("owner-depth-never") => u64::MAX,
            () if self.fault.is("owner-depth-leaf") && child.kind != MASTER_KIND => u64::MAX,
            () if self.fault.is("owner-depth-held") && child.end <= self.address => u64::MAX,
            () => 15,
        };
        if master.depth <= deepest {
            return Ok(());
        }
        let outermost = master.all().filter(|own| own.depth > 0).last();
        let wrong = [
            ("at-depth-master", master.at),
            ("at-depth-outer", outermost.map_or(child.at, |own| own.at)),
            ("at-limits-payload", child.body),
        ];
        Err(refusal(12, child.at).or(self.fault, &wrong))
    }

    /// 3 for a child that ends behind its master.
    fn overrun(&self, child: &Child, master: &Master) -> Result<(), Refusal> {
        let in_header = self.address < child.body;
        let tested = match () {
            () if self.fault.is("overrun-never") => false,
            () if self.fault.is("overrun-outer") => master.depth == 0,
            () if self.fault.is("owner-overrun-header") => !in_header,
            () if self.fault.is("owner-overrun-body") => in_header,
            () if self.fault.is("owner-overrun-leaf") => child.kind == MASTER_KIND,
            () if self.fault.is("owner-overrun-master") => child.kind != MASTER_KIND,
            () => true,
        };
        let end = match () {
            () if self.fault.is("owner-overrun-size") => child.end - (child.body - child.at),
            () if self.fault.is("owner-overrun-full") => child.end + 1,
            () => child.end,
        };
        if !tested || u128::from(end) <= master.end {
            return Ok(());
        }
        let wrong = [
            ("at-overrun-master", master.at),
            ("at-overrun-end", master.end as u64),
            ("at-overrun-behind", child.end),
        ];
        Err(refusal(3, child.at).or(self.fault, &wrong))
    }

    /// The answer if a child holds the address.
    fn told(&self, child: &Child, master: &Master) -> Option<Result<String, Refusal>> {
        let header = match () {
            () if self.fault.is("header-end") => child.body + 1,
            () if self.fault.is("owner-header-short") => child.body - 1,
            () if self.fault.is("owner-header-id") => child.at + id_width(child.id.into()),
            () => child.body,
        };
        let end = match () {
            () if self.fault.is("owner-end-plus") => child.end + 1,
            () if self.fault.is("owner-end-minus") => child.end - u64::from(child.end > header),
            () => child.end,
        };
        if self.address < header {
            return Some(Ok(self.named("header", child, master)));
        }
        if self.address >= end {
            return None;
        }
        if self.gone_into(child) {
            return Some(self.within(&Master {
                id: child.id,
                at: child.at,
                from: child.body,
                end: child.end.into(),
                depth: master.depth + 1,
                outer: Some(master),
            }));
        }
        let looked_at = self.leaf(child);
        Some(looked_at.map(|()| self.named("payload", child, master)))
    }

    /// Whether the address is looked for among the children of a child.
    fn gone_into(&self, child: &Child) -> bool {
        match child.kind {
            _ if self.address < child.body => false,
            MASTER_KIND => !self.fault.is("outer-row"),
            BINARY_KIND if self.fault.is("owner-into-binary") => true,
            _ => self.fault.is("owner-into-leaf"),
        }
    }

    /// The words of the answer.
    fn named(&self, which: &str, child: &Child, master: &Master) -> String {
        let at = match () {
            () if self.fault.is("owner-at-body") && which == "payload" => child.body,
            () if self.fault.is("owner-at-master") => master.at,
            () if self.fault.is("owner-at-relative") => child.at - self.start,
            () if self.fault.is("owner-at-row") => self.headers.get() - 1,
            () if self.fault.is("at-hex") => return format!("{which} {:X}", child.at),
            () => child.at,
        };
        format!("{which} {at}")
    }

    /// What a faulty reader looks at in the leaf that holds the address.
    fn leaf(&self, child: &Child) -> Result<(), Refusal> {
        let length = self.bytes.len() as u64;
        let missing = self.fault.is("owner-body-there") && child.end > length
            || self.fault.is("owner-byte-there") && self.address >= length;
        if missing {
            return Err(refusal(1, child.at));
        }
        if self.fault.is("owner-body-sized") || self.fault.is("owner-body-text") {
            return self.body(child);
        }
        Ok(())
    }

    /// What one looks at in a child before the address.
    fn skipped(&self, child: &Child) -> Result<(), Refusal> {
        if self.fault.is("owner-skipped-there") && child.end > self.bytes.len() as u64 {
            return Err(refusal(1, child.at));
        }
        let (leaf, size) = (child.kind != MASTER_KIND, child.end - child.body);
        if self.fault.is("owner-skipped-body") && leaf {
            return self.body(child);
        }
        if self.fault.is("owner-skipped-master") && !leaf {
            let within = Read::new(child.body, size, child.id, self.bytes);
            return Lent::new(MOST_NUMBERS, self.fault).fill(&within);
        }
        Ok(())
    }

    /// A body by the rules of the table; two of the faults know a part of them.
    fn body(&self, child: &Child) -> Result<(), Refusal> {
        let size = child.end - child.body;
        let read = self
            .lent
            .body(child.kind, self.bytes, child.at, child.body, size);
        let wanted: &[u64] = match () {
            () if self.fault.is("owner-body-sized") => &[4, 5, 6],
            () if self.fault.is("owner-body-text") => &[7],
            () => &[1, 4, 5, 6, 7],
        };
        read.or_else(|bad| {
            if wanted.contains(&bad.number) {
                Err(bad)
            } else {
                Ok(())
            }
        })
    }

    /// Reads the children of a master that stand behind the address.
    fn rest(&self, from: u64, master: &Master) -> Result<(), Refusal> {
        let mut at = from;
        while u128::from(at) < master.end {
            let child = self.child(at, at, master)?;
            self.depth(&child, master)?;
            self.overrun(&child, master)?;
            at = child.end;
        }
        Ok(())
    }
}

impl Master<'_> {
    /// The master and those around it, the innermost first.
    fn all(&self) -> impl Iterator<Item = &Master<'_>> {
        std::iter::successors(Some(self), |own| own.outer)
    }
}
