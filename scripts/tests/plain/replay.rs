//! `replay`: the events of a trace on a heap, and the report on them.

use crate::heap::{choose_tag, Heap, Reason, Settings};
use crate::memory::{logical_tag, Fault, GRANULE, TAG_MASK};
use crate::text::{push_hex, push_number};
use crate::trace::{Event, Place};

#[derive(Default)]
struct Totals {
    events: u64,
    requests: u64,
    null_large: u64,
    null_no_class: u64,
    null_exhausted: u64,
    faults_tag: u64,
    faults_unmapped: u64,
    refused_frees: u64,
    loss: u64,
}

pub struct Replay {
    heap: Heap,
    variables: [u64; 1024],
    totals: Totals,
}

impl Replay {
    pub fn new(classes: &[u32], settings: &Settings) -> Replay {
        Replay {
            heap: Heap::new(classes, settings),
            variables: [0; 1024],
            totals: Totals::default(),
        }
    }

    /// Replays an event, and appends its line to the report where it has one.
    #[inline(always)]
    pub fn step(&mut self, event: &Event, report: &mut Vec<u8>) {
        self.totals.events += 1;
        match *event {
            Event::Malloc { v, n } => {
                let given = self.heap.malloc(n);
                self.give(v, given, 0, report);
            }
            Event::Calloc { v, n } => {
                let given = self.heap.calloc(n);
                self.give(v, given, 0, report);
            }
            Event::Realloc { v, n } => {
                let p = self.variables[v as usize];
                let given = self.heap.realloc(p, n);
                self.give(v, given, p, report);
            }
            Event::Free { v } => {
                if let Err(reason) = self.heap.free(self.variables[v as usize]) {
                    self.refused(reason, report);
                }
            }
            Event::Load { at, len } => match self.access(at, len) {
                Ok(from) => self.loaded(from, len, report),
                Err(fault) => self.fault(fault, report),
            },
            Event::Store { at, len, byte } => match self.access(at, len) {
                Ok(from) => self.heap.memory.fill(from, usize::from(len), byte),
                Err(fault) => self.fault(fault, report),
            },
            Event::Addg { v, w, u6, u4 } => {
                self.variables[v as usize] = self.moved(w, i64::from(u6), u4)
            }
            Event::Subg { v, w, u6, u4 } => {
                self.variables[v as usize] = self.moved(w, -i64::from(u6), u4)
            }
        }
    }

    // the address in a variable so many granules further, with its tag so many steps upwards
    fn moved(&self, w: u16, granules: i64, steps: u8) -> u64 {
        let p = self.variables[w as usize];
        let tag = choose_tag(logical_tag(p), steps, 1);
        let address = p.wrapping_add((GRANULE as i64 * granules) as u64);
        address & !TAG_MASK | u64::from(tag) << 56
    }

    /// Appends the totals to the report.
    pub fn write_totals(&self, report: &mut Vec<u8>) {
        let t = &self.totals;
        for (name, total) in [
            ("events ", t.events),
            ("requests ", t.requests),
            ("null large ", t.null_large),
            ("null no-class ", t.null_no_class),
            ("null exhausted ", t.null_exhausted),
            ("faults tag ", t.faults_tag),
            ("faults unmapped ", t.faults_unmapped),
            ("refused frees ", t.refused_frees),
            ("loss ", t.loss),
        ] {
            report.extend_from_slice(name.as_bytes());
            push_number(report, total);
            report.push(b'\n');
        }
    }

    // where in the region a load or a store is
    fn access(&self, at: Place, len: u8) -> Result<usize, Fault> {
        let address = self.variables[usize::from(at.v())].wrapping_add(at.off() as i64 as u64);
        self.heap.memory.check(address, len)
    }

    fn loaded(&self, from: usize, len: u8, report: &mut Vec<u8>) {
        push_number(report, self.totals.events);
        report.extend_from_slice(b" data ");
        let mut from = from;
        let mut left = usize::from(len);
        while left > 16 {
            push_hex(report, self.heap.memory.sixteen(from), 16);
            from += 16;
            left -= 16;
        }
        push_hex(report, self.heap.memory.sixteen(from), left);
        report.push(b'\n');
    }

    fn give(
        &mut self,
        v: u16,
        given: Result<(u64, u32), Reason>,
        otherwise: u64,
        report: &mut Vec<u8>,
    ) {
        self.totals.requests += 1;
        match given {
            Ok((p, loss)) => {
                self.variables[v as usize] = p;
                self.totals.loss += loss as u64;
            }
            Err(reason) => {
                self.variables[v as usize] = otherwise;
                self.refused(reason, report);
            }
        }
    }

    fn refused(&mut self, reason: Reason, report: &mut Vec<u8>) {
        let (total, words) = match reason {
            Reason::Large => (&mut self.totals.null_large, &b" null large\n"[..]),
            Reason::NoClass => (&mut self.totals.null_no_class, &b" null no-class\n"[..]),
            Reason::Exhausted => (&mut self.totals.null_exhausted, &b" null exhausted\n"[..]),
            Reason::Misplaced => (&mut self.totals.refused_frees, &b" refused misplaced\n"[..]),
            Reason::NotLive => (&mut self.totals.refused_frees, &b" refused not-live\n"[..]),
            Reason::WrongTag => (&mut self.totals.refused_frees, &b" refused wrong-tag\n"[..]),
        };
        *total += 1;
        push_number(report, self.totals.events);
        report.extend_from_slice(words);
    }

    fn fault(&mut self, fault: Fault, report: &mut Vec<u8>) {
        push_number(report, self.totals.events);
        match fault {
            Fault::Unmapped => {
                self.totals.faults_unmapped += 1;
                report.extend_from_slice(b" fault unmapped\n");
            }
            Fault::Tag {
                granule,
                memory_tag,
                pointer_tag,
            } => {
                self.totals.faults_tag += 1;
                report.extend_from_slice(b" fault tag granule ");
                push_number(report, granule as u64);
                report.extend_from_slice(b" memory ");
                push_number(report, memory_tag as u64);
                report.extend_from_slice(b" pointer ");
                push_number(report, pointer_tag as u64);
                report.extend_from_slice(b" in ");
                report.extend_from_slice(self.heap.kind(granule).as_bytes());
                report.push(b'\n');
            }
        }
    }
}
