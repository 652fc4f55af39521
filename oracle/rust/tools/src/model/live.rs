//! The walk of the search in live mode, where a Segment or Cluster may have an unknown size.
//! One loop without nesting finds every ending: what ends a Segment ends a Cluster in it too.

use crate::lent::unknown;
use crate::refusal::{refusal, Refusal};
use crate::search::{Met, Search};
use tools::ids::{CLUSTER, EBML, SEEK_HEAD, SEGMENT};

/// What ends a Cluster beside a Segment and an EBML header, each with the fault that does not
/// know it.
const ENDS_CLUSTER: [(u32, &str); 8] = [
    (SEEK_HEAD, "live-head-inside"),
    (0x1549A966, "live-info-inside"),
    (0x1654AE6B, "live-tracks-inside"),
    (0x1043A770, "live-chapters-inside"),
    (CLUSTER, "live-cluster-inside"),
    (0x1C53BB6B, "live-cues-inside"),
    (0x1941A469, "live-attachments-inside"),
    (0x1254C367, "live-tags-inside"),
];

/// What does not end one, each with the fault that takes it for its end.
const NO_ENDS: [(u32, &str); 3] = [
    (0xEC, "live-void-ends"),
    (0xBF, "live-crc-ends"),
    (0xA0, "live-group-ends"),
];

impl Search<'_> {
    pub fn length(&self) -> u64 {
        self.bytes.len() as u64
    }

    pub fn unknown(&self, met: &Met) -> bool {
        unknown([met.id.into(), met.header, met.payload], self.fault)
    }

    /// 17 for an element that was met in another one.
    pub fn endless(&self, met: &Met, master: u64) -> Refusal {
        let wrong = [("live-at-master", master), ("live-at-payload", met.body())];
        refusal(17, met.at).or(self.fault, &wrong)
    }

    /// Goes to the segment, and over its children.
    pub fn live_file(&mut self) -> Result<String, Refusal> {
        let mut at = 0;
        loop {
            let met = self.header(at, 0)?;
            if met.id == SEGMENT {
                return self.live_children(met);
            }
            let cluster = met.id == CLUSTER && !self.fault.is("live-before-cluster");
            at = match self.unknown(&met) {
                true if self.fault.is("live-before-any") => met.body() + met.payload,
                true if cluster => self.ending(&met, self.length(), self.length())?,
                true => return Err(self.endless(&met, 0)),
                false => met.body() + met.payload,
            };
        }
    }

    /// Goes over the children of the segment.
    fn live_children(&mut self, segment: Met) -> Result<String, Refusal> {
        self.segment = segment.at;
        self.start = segment.body();
        let known = !self.unknown(&segment);
        self.end = if known {
            segment.body() + segment.payload
        } else {
            self.length()
        };
        let mut at = self.start;
        while at < self.end {
            let met = match self.header(at, 0) {
                Err(bad) if bad.number == 1 && !known && self.fault.is("live-cut") => {
                    return self.absent()
                }
                met => met?,
            };
            let unknown = self.unknown(&met);
            let ended = !known || self.fault.is("live-known-ends");
            let first = unknown && self.fault.is("live-end-17") && met.id == EBML;
            if ended && self.ends(SEGMENT, met.id) && !first {
                return self.absent();
            }
            let passed = match met.id {
                CLUSTER => true,
                SEGMENT => known && !self.fault.is("live-inner-17"),
                SEEK_HEAD => self.fault.is("live-head-taken"),
                id => id == self.wanted && self.fault.is("live-part-taken"),
            };
            if unknown && !passed {
                return Err(self.endless(&met, segment.at));
            }
            if met.id == SEEK_HEAD {
                return self.follow(met);
            }
            if met.id == self.wanted {
                return self.read(met);
            }
            at = self.behind(&met, known)?;
        }
        self.absent()
    }

    /// The place behind a child of the segment.
    pub fn behind(&self, met: &Met, known: bool) -> Result<u64, Refusal> {
        let (end, length) = (met.body() + met.payload, self.length());
        if self.unknown(met) {
            let far = self.fault.is("live-limit")
                || met.id == SEGMENT && self.fault.is("live-inner-segment");
            let limit = if far { length } else { self.end };
            return self.ending(met, limit, self.end);
        }
        if met.id == CLUSTER && self.fault.is("live-known-cluster") {
            return self.ending(met, end.min(self.end), self.end);
        }
        if end > self.end && (known || self.fault.is("live-overrun")) {
            return Err(refusal(3, met.at));
        }
        if end > length && self.fault.is("live-past-end") {
            return Err(refusal(1, end));
        }
        Ok(end)
    }

    /// Where an element of unknown size ends, within a limit.
    pub fn ending(&self, own: &Met, limit: u64, outer: u64) -> Result<u64, Refusal> {
        let length = self.length();
        if self.fault.is("live-scan") {
            let found = (own.body()..limit.min(length)).find(|place| self.id_at(own.id, *place));
            return Ok(found.unwrap_or(limit));
        }
        let mut place = own.body();
        loop {
            if place >= limit && !self.fault.is("live-recording-first") {
                return Ok(limit);
            }
            if place >= length {
                if place > length && self.fault.is("live-past-cluster") {
                    return Err(refusal(1, place));
                }
                return Ok(length);
            }
            let met = match self.header(place, 0) {
                Err(bad) if bad.number == 1 && self.fault.is("live-cut") => return Ok(length),
                met => met.map_err(|bad| bad.or(self.fault, &[("live-cut-at", own.at)]))?,
            };
            if self.ends(own.id, met.id) {
                return Ok(place);
            }
            place = met.body() + met.payload;
            if self.unknown(&met) {
                let nested = own.id == SEGMENT && met.id == CLUSTER;
                match () {
                    () if nested && !self.fault.is("live-nested-17") => place = met.body(),
                    () if self.fault.is("live-child-skipped") => return Ok(limit.min(length)),
                    () if self.fault.is("live-child-taken") => {}
                    () if self.fault.is("live-group-into") && met.id == 0xA0 => place = met.body(),
                    () => return Err(self.endless(&met, own.at)),
                }
            }
            if place > outer && outer != length && self.fault.is("live-block-overrun") {
                return Err(refusal(3, met.at));
            }
        }
    }

    /// Whether the bytes at a place are an id that ends such an element.
    fn id_at(&self, id: u32, place: u64) -> bool {
        let bytes = self.bytes.get(place as usize..place as usize + 4);
        let found = bytes.and_then(|bytes| bytes.try_into().ok());
        found.is_some_and(|found| self.ends(id, u32::from_be_bytes(found)))
    }

    /// Whether an element of that id ends before another one.
    pub fn ends(&self, id: u32, next: u32) -> bool {
        let cluster = id == CLUSTER;
        if next == EBML {
            return !self.fault.is(if cluster {
                "live-ebml-cluster"
            } else {
                "live-ebml-segment"
            });
        }
        if next == SEGMENT {
            return !self.fault.is(if cluster {
                "live-segment-cluster"
            } else {
                "live-segment-segment"
            });
        }
        let known = ENDS_CLUSTER.iter().find(|(child, _)| *child == next);
        let other = NO_ENDS.iter().find(|(child, _)| *child == next);
        cluster
            && (known.is_some_and(|(_, fault)| !self.fault.is(fault))
                || other.is_some_and(|(_, fault)| self.fault.is(fault))
                || next >= 1 << 24 && self.fault.is("live-wide-ends"))
    }

    /// 17 at an address where an id was sought.
    pub fn live_sought(&self, met: &Met, id: u32) -> Result<(), Refusal> {
        let taken = match met.id {
            _ if self.fault.is("live-sought-taken") => true,
            _ if self.fault.is("live-17-9") => met.id != id,
            SEGMENT => !self.fault.is("live-sought-segment"),
            CLUSTER => !self.fault.is("live-sought-cluster"),
            _ => false,
        };
        if taken || !self.unknown(met) {
            return Ok(());
        }
        Err(self.endless(met, self.segment))
    }
}
