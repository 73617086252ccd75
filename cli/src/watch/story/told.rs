//! A story in words: one sentence first.
use super::super::grouped::grouped;
use super::super::touched::runs;
use super::{Met, Place, Read, Spot, Story};
use crate::format::put;

/// So many reads of what never was there are named, and so many places.
const NAMED: usize = 10;
const PLACES: usize = 4;

fn signed(n: i64) -> String {
    let sign = if n < 0 { "-" } else { "+" };
    format!("{sign}{}", grouped(n.unsigned_abs()))
}

fn times(n: u64) -> String {
    match n {
        1 => "once".to_string(),
        n => format!("{} times", grouped(n)),
    }
}

fn many(n: u64, one: &str) -> String {
    format!("{} {one}{}", grouped(n), if n == 1 { "" } else { "s" })
}

fn bytes(touched: u8) -> String {
    let name = if touched.count_ones() == 1 {
        "byte"
    } else {
        "bytes"
    };
    format!("{name} {}", runs(touched, " to "))
}

impl Story {
    /// In how many stores, from where, how often it was read, and what these reads showed.
    pub(in super::super) fn sentence(&self) -> String {
        format!("{} {}", self.written(), self.shown())
    }

    fn written(&self) -> String {
        let name = &self.side.name;
        let from = self.from();
        match (self.writers.is_empty(), self.fewest, self.most) {
            (true, _, _) => format!("No store to {name} was seen."),
            (_, u64::MAX, _) => {
                format!("Stores wrote only parts of {name}, never all of its bytes{from}.")
            }
            (_, 1, 1) => format!("{name} is written in one store each time{from}."),
            (_, n, m) if n == m => format!("{name} is written in {n} stores each time{from}."),
            (_, n, m) => format!("{name} is written in {n} to {m} stores{from}."),
        }
    }

    /// `, from controller.c:41 and controller.c:42`
    fn from(&self) -> String {
        let mut names: Vec<String> = Vec::new();
        for place in &self.writers {
            let name = self.site_name(place.site);
            if !names.contains(&name) {
                names.push(name);
            }
        }
        let more = names.len().saturating_sub(PLACES);
        names.truncate(PLACES);
        if more > 0 {
            names.push(many(more as u64, "further place"));
        }
        match names.split_last() {
            None => String::new(),
            Some((one, [])) => format!(", from {one}"),
            Some((last, others)) => format!(", from {} and {last}", others.join(", ")),
        }
    }

    fn shown(&self) -> String {
        let all = self.counts.iter().copied().fold(0, u64::saturating_add);
        let (never, luck) = (self.count(Met::Never), self.count(Met::Luck));
        let mut words = match all {
            0 => return "No read of it was seen.".to_string(),
            n => format!("It was read {}", times(n)),
        };
        words.push_str(&match (never, luck) {
            (0, 0) => "; no read fell between the parts of a change".to_string(),
            (0, _) => String::new(),
            (n, _) => format!(
                "; {} fell between the parts and showed a value that never existed{}",
                many(n, "read"),
                self.by_how_much()
            ),
        });
        if luck > 0 {
            let read = many(luck, "read");
            words.push_str(&format!(
                "; {read} fell between the parts, where the old and the new part happened to fit"
            ));
        }
        let unsettled = self.count(Met::Unsettled);
        if unsettled > 0 {
            let read = many(unsettled, "read");
            words.push_str(&format!(
                "; {read} fell between the parts of a change that the recording does not end"
            ));
        }
        words.push('.');
        words
    }

    /// `, off by -4,294,967,296 to +4,294,967,296`
    fn by_how_much(&self) -> String {
        let offs = || self.never().filter_map(|read| self.off(read));
        match (offs().min(), offs().max()) {
            (Some(least), Some(most)) if least == most => format!(", off by {}", signed(least)),
            (Some(least), Some(most)) => {
                format!(", off by {} to {}", signed(least), signed(most))
            }
            _ => String::new(),
        }
    }

    fn site_name(&self, site: u64) -> String {
        let spot = self.spot(site);
        spot.map_or("a place that is not known".to_string(), Spot::name)
    }

    /// Who writes it, who reads it, and the reads of what never was there.
    pub(in super::super) fn put(&self, out: &mut Vec<u8>) {
        put!(out, "{}\n", self.sentence());
        self.put_places(out, "who writes it", &self.writers, "store");
        self.put_places(out, "who reads it", &self.readers, "read");
        let never = self.count(Met::Never);
        if never > 0 {
            put!(out, "reads of a value that never existed\n");
            for read in self.never().take(NAMED) {
                self.put_read(out, read);
            }
            if never > NAMED as u64 {
                put!(
                    out,
                    "  and {} more\n",
                    grouped(never.saturating_sub(NAMED as u64))
                );
            }
        }
        self.put_beside(out);
    }

    fn put_places(&self, out: &mut Vec<u8>, what: &str, places: &[Place], one: &str) {
        if places.is_empty() {
            return;
        }
        put!(out, "{what}\n");
        let mut told: Vec<u64> = Vec::new();
        for place in places {
            if !told.contains(&place.site) {
                told.push(place.site);
                self.put_site(out, places, place.site, one);
            }
        }
    }

    /// What came from one place; a repeated instruction touches other bytes each time.
    fn put_site(&self, out: &mut Vec<u8>, places: &[Place], site: u64, one: &str) {
        let here = || places.iter().filter(|place| place.site == site);
        let all = here().fold(0, |bytes, place| bytes | place.bytes);
        let count = here().map(|place| place.count).fold(0, u64::saturating_add);
        let never = here().map(|place| place.never).fold(0, u64::saturating_add);
        let part = match (here().count(), all == self.full) {
            (1, true) => "whole".to_string(),
            (1, false) => "part".to_string(),
            (n, _) => format!("in {n} parts"),
        };
        let spot = self.spot(site);
        let function = spot.map_or("", |spot| spot.function.as_str());
        put!(
            out,
            "  {}  {}  {} of {}, {part}  {}",
            self.site_name(site),
            if function.is_empty() { "-" } else { function },
            bytes(all),
            self.side.length,
            many(count, one)
        );
        if never > 0 {
            put!(out, ", {} of a value that never existed", grouped(never));
        }
        put!(out, "\n");
    }

    fn put_read(&self, out: &mut Vec<u8>, read: &Read) {
        let wide = usize::try_from(self.side.length.saturating_mul(2)).unwrap_or(16);
        put!(
            out,
            "  record {}  {}  read 0x{:0wide$x}, before it was 0x{:0wide$x}, after it 0x{:0wide$x}",
            read.record,
            self.reader(read),
            read.value,
            read.before,
            read.after
        );
        if let Some(off) = self.off(read) {
            put!(out, ", off by {}", signed(off));
        }
        put!(out, "\n");
    }

    /// What the opcodes are that have no log, by the recorder's numbers; and that the variable was looked at behind them.
    pub(in super::super) fn complex(&self) -> Vec<String> {
        let mut all: Vec<(u64, String)> = Vec::new();
        for spot in self.side.spots.values().filter(|spot| spot.is_complex) {
            let name = spot.text.split(' ').next().unwrap_or("");
            let why = spot.text.split_once(" ; ").map_or("", |(_, why)| why);
            let words = format!("opcode {} is {name}: {why}", spot.opcode);
            if !all.iter().any(|(opcode, _)| *opcode == spot.opcode) {
                all.push((spot.opcode, words));
            }
        }
        all.sort();
        let mut all: Vec<String> = all.into_iter().map(|(_, words)| words).collect();
        if !all.is_empty() {
            all.push("the recorder looked at the variable behind each of these: what changed it is named above, a store of the same value is not".to_string());
        }
        all
    }

    /// What the recorder saw that no record tells.
    fn put_beside(&self, out: &mut Vec<u8>) {
        for words in self.beside() {
            put!(out, "{words}\n");
        }
    }

    /// What the recorder saw that no record tells, and what it could not see.
    pub(in super::super) fn beside(&self) -> Vec<String> {
        let side = &self.side;
        let mut all = Vec::new();
        let mut by: Vec<(&str, u64, u64)> = Vec::new();
        for unsaid in &side.unsaid {
            match by.iter_mut().find(|(name, ..)| *name == unsaid.by) {
                Some((_, count, _)) => *count = count.saturating_add(1),
                None => by.push((&unsaid.by, 1, unsaid.record)),
            }
        }
        for (name, count, record) in by {
            let (name, times) = (name.to_string(), times(count));
            all.push(format!(
                "changed by {name}, {times}, first at record {record}"
            ));
        }
        if side.threads > 1 {
            let threads = grouped(side.threads);
            all.push(format!(
                "{threads} threads were followed, one step at a time"
            ));
        }
        all.extend(side.notes.iter().cloned());
        if self.unplaced > 0 {
            let accesses = many(self.unplaced, "access");
            all.push(format!("{accesses} of the trace not in the side file"));
        }
        if !side.ended {
            all.push("the recording was not ended in order: it may be cut".to_string());
        }
        all
    }
}
