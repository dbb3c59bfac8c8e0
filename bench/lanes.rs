//! Lanes by number of trips instead of the labels of trips and the fronts of stops, as they were measured (NOTEBOOK.md, *Lanes by number of trips*): plain
//! Rust over the scan's types, not proved and no part of the program. A step of the scan calls `end`, `change` and `board` of `LaneState`, and hands the
//! lanes of a trip that are less than those before them to `set_out` as labels.

use crate::bound::Bound;
use crate::hop::ScanQuery;
use criteria::Criterion;
use sources::ConnSource;
use fronts::copies;
use std::alloc::{AllocError, Global};
use timetable::Connection;

/// Lane k: the least time with at most k trips, without the ride in this trip. `version`: the newest exit, 0 if none.
#[derive(Clone, Copy, Drop)]
pub struct LaneLabel {
    pub lanes: [u32; 8],
    pub version: u32,
}

/// How a trip is left: at the end of connection `last`, to go on from entry `on`, or to end at `time` if that is 0.
#[derive(Clone, Copy, Drop)]
pub struct LaneExit {
    pub last: u32,
    pub on: u32,
    pub time: u32,
    pub before: u32,
}

/// A front: word k is the least time with at most k trips; word 0 is never.
#[derive(Clone, Copy, Drop)]
pub struct LaneEntry {
    pub departure: u32,
    pub next: u32,
    pub words: [u32; 9],
}

/// How one goes on from an entry.
#[derive(Clone, Copy, Drop)]
pub struct LaneWay {
    pub first: u32,
    pub walk: u32,
    pub version: u32,
    pub of: u32,
}

#[derive(Drop)]
pub struct LaneState {
    pub labels: Vec<LaneLabel>,
    pub exits: Vec<LaneExit>,
    pub heads: Vec<u32>,
    pub entries: Vec<LaneEntry>,
    pub ways: Vec<LaneWay>,
    pub passed: Vec<u32>,
    pub bound: [u32; 9],
    pub bound_count: usize,
}

#[inline(always)]
fn has_news(lanes: &[u32; 8], bound: &[u32; 9], words: &[u32; 9]) -> bool {
    let mut any = false;
    for k in 0..8 {
        any |= words[k] < lanes[k].min(bound[k + 1]);
    }
    any
}

#[inline(always)]
fn taken(lanes: &[u32; 8], words: &[u32; 9]) -> [u32; 8] {
    let mut out = [0u32; 8];
    for k in 0..8 {
        out[k] = lanes[k].min(words[k]);
    }
    out
}

#[inline(always)]
fn betters(lanes: &[u32; 8], bound: &[u32; 9], words: &[u32; 9]) -> bool {
    let mut any = false;
    for k in 0..8 {
        any |= lanes[k] < words[k + 1].min(bound[k + 1]);
    }
    any
}

#[inline(always)]
fn boarded(lanes: &[u32; 8], words: &[u32; 9]) -> [u32; 9] {
    let mut out = [u32::MAX; 9];
    for k in 0..8 {
        out[k + 1] = lanes[k].min(words[k + 1]);
    }
    out
}

#[inline(always)]
fn adds(words: &[u32; 9], behind: &[u32; 9]) -> bool {
    let mut any = false;
    for k in 0..9 {
        any |= words[k] < behind[k];
    }
    any
}

#[inline(always)]
fn both(words: &[u32; 9], behind: &[u32; 9]) -> [u32; 9] {
    let mut out = [0u32; 9];
    for k in 0..9 {
        out[k] = words[k].min(behind[k]);
    }
    out
}

impl LaneState {
    pub fn new(alloc: Global, stops: u32, trips: u32) -> Result<Self, AllocError> {
        let none = LaneLabel { lanes: [u32::MAX; 8], version: 0 };
        let mut entries = Vec::new(alloc);
        entries.push(LaneEntry { departure: u32::MAX, next: 0, words: [u32::MAX; 9] })?;
        let mut ways = Vec::new(alloc);
        ways.push(LaneWay { first: 0, walk: 0, version: 0, of: 0 })?;
        let mut exits = Vec::new(alloc);
        exits.push(LaneExit { last: 0, on: 0, time: 0, before: 0 })?;
        Ok(LaneState {
            labels: copies(alloc, none, trips as usize)?,
            exits,
            heads: copies(alloc, 0u32, stops as usize)?,
            entries,
            ways,
            passed: Vec::new(alloc),
            bound: [u32::MAX; 9],
            bound_count: 0,
        })
    }

    // The least times that the bound's values have. Values are only added or replaced by better ones.
    #[inline(never)]
    pub fn read_bound<C: Criterion>(&mut self, criterion: &C, bound: &Bound<C>) {
        let mut words = self.bound;
        for j in 0..bound.values.len() {
            let (time, trips) = criterion.parts(&bound.values[j]);
            for k in 0..9 {
                if k >= trips as usize {
                    words[k] = words[k].min(time);
                }
            }
        }
        self.bound = words;
    }

    #[inline(always)]
    fn late(&self, head: u32, time: u32) -> u32 {
        let mut index = head;
        while self.entries[index as usize].departure < time {
            index = self.entries[index as usize].next;
        }
        index
    }

    #[inline(always)]
    pub fn end(&mut self, trip: u32, time: u32, place: u32) -> Result<(), AllocError> {
        let label = self.labels[trip as usize];
        if label.lanes[0] <= time {
            return Ok(());
        }
        let mut out = [0u32; 8];
        for k in 0..8 {
            out[k] = label.lanes[k].min(time);
        }
        let version = self.exits.len() as u32;
        self.labels[trip as usize] = LaneLabel { lanes: out, version };
        self.exits.push(LaneExit { last: place, on: 0, time, before: label.version })
    }

    #[inline(always)]
    pub fn change(&mut self, connection: &Connection, place: u32) -> Result<(), AllocError> {
        let head = self.heads[connection.to as usize];
        let index = self.late(head, connection.arr);
        if !has_news(&self.labels[connection.trip as usize].lanes, &self.bound, &self.entries[index as usize].words) {
            return Ok(());
        }
        let version = self.exits.len() as u32;
        let lanes = taken(&self.labels[connection.trip as usize].lanes, &self.entries[index as usize].words);
        let before = self.labels[connection.trip as usize].version;
        self.labels[connection.trip as usize] = LaneLabel { lanes, version };
        self.exits.push(LaneExit { last: place, on: index, time: 0, before })
    }

    #[inline(always)]
    fn push(&mut self, departure: u32, next: u32, words: [u32; 9], way: LaneWay) -> Result<u32, AllocError> {
        let new = self.entries.len() as u32;
        self.entries.push(LaneEntry { departure, next, words })?;
        self.ways.push(way)?;
        Ok(new)
    }

    #[inline(always)]
    pub fn board<S: ConnSource>(&mut self, source: &S, connection: &Connection, place: u32) -> Result<(), AllocError> {
        let label = self.labels[connection.trip as usize];
        if !betters(&label.lanes, &self.bound, &[u32::MAX; 9]) {
            return Ok(());
        }
        let (begin, end) = source.walks_into(connection.from as usize);
        for walk_index in begin..end {
            let walk = source.footpath_into(connection.from as usize, walk_index);
            if walk.secs <= connection.dep {
                let departure = connection.dep - walk.secs;
                let head = self.heads[walk.from as usize];
                let way = LaneWay { first: place, walk: walk_index as u32, version: label.version, of: 0 };
                if self.entries[head as usize].departure >= departure {
                    if betters(&label.lanes, &self.bound, &self.entries[head as usize].words) {
                        let words = boarded(&label.lanes, &self.entries[head as usize].words);
                        let new = self.push(departure, head, words, way)?;
                        self.heads[walk.from as usize] = new;
                    }
                } else {
                    let index = self.late(head, departure);
                    if betters(&label.lanes, &self.bound, &self.entries[index as usize].words) {
                        self.board_behind(walk.from, departure, index, &label.lanes, way)?;
                    }
                }
            }
        }
        Ok(())
    }

    #[inline(never)]
    fn board_behind(&mut self, stop: u32, departure: u32, after: u32, lanes: &[u32; 8], way: LaneWay) -> Result<(), AllocError> {
        self.passed.clear();
        let mut index = self.heads[stop as usize];
        while index != after {
            self.passed.push(index)?;
            index = self.entries[index as usize].next;
        }
        let words = boarded(lanes, &self.entries[after as usize].words);
        let mut new = self.push(departure, after, words, way)?;
        while let Some(from) = self.passed.pop() {
            let old = self.entries[from as usize];
            if adds(&old.words, &self.entries[new as usize].words) {
                let words = both(&old.words, &self.entries[new as usize].words);
                let way = self.ways[from as usize];
                new = self.push(old.departure, new, words, LaneWay { of: from, ..way })?;
            }
        }
        self.heads[stop as usize] = new;
        Ok(())
    }
}
