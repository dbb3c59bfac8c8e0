//! Pareto fronts of values: of each trip, and of each stop by departure.

use std::mem::replace;

use crate::values::Value;

/// Puts into `merged` what no other value of both is no worse than. Says whether something offered stands; if not, `merged` is empty.
pub fn merge<const P: usize>(standing: &[Value<P>], offered: &[Value<P>], merged: &mut Vec<Value<P>>) -> bool {
    merged.clear();
    merged.extend(offered.iter().filter(|value| !standing.iter().any(|other| other.no_worse(value))));
    let fresh = merged.len();
    if fresh == 0 {
        return false;
    }
    for value in standing {
        if !merged[..fresh].iter().any(|other| other.no_worse(value)) {
            merged.push(*value);
        }
    }
    true
}

/// A place in a vector of values.
#[derive(Clone, Copy)]
struct Span {
    begin: u32,
    end: u32,
}

impl Span {
    fn of<V>(self, values: &[V]) -> &[V] {
        &values[self.begin as usize..self.end as usize]
    }

    /// Writes a front over the one that is here if it fits, else behind all others.
    fn put<V: Copy>(&mut self, values: &mut Vec<V>, front: &[V]) {
        if front.len() > (self.end - self.begin) as usize {
            self.begin = values.len() as u32;
            values.extend_from_slice(front);
        } else {
            values[self.begin as usize..][..front.len()].copy_from_slice(front);
        }
        self.end = self.begin + front.len() as u32;
    }
}

/// What a passenger may reach who sits in a trip.
pub struct Labels<const P: usize> {
    fronts: Vec<Span>,
    values: Vec<Value<P>>,
}

impl<const P: usize> Labels<P> {
    pub fn new(trips: usize) -> Self {
        Labels { fronts: vec![Span { begin: 0, end: 0 }; trips], values: Vec::new() }
    }

    pub fn of(&self, trip: u32) -> &[Value<P>] {
        self.fronts[trip as usize].of(&self.values)
    }

    pub fn offer(&mut self, trip: u32, offered: &[Value<P>], merged: &mut Vec<Value<P>>) {
        if merge(self.of(trip), offered, merged) {
            self.fronts[trip as usize].put(&mut self.values, merged);
        }
    }
}

/// The front for whoever is ready at this departure, or before it and after that of the step before.
struct Step {
    departure: u32,
    /// One more than the place of the step that departs next, 0 at the last one.
    next: u32,
    front: Span,
}

/// A chain of steps by rising departure for each stop.
pub struct Lists<const P: usize> {
    heads: Vec<u32>,
    steps: Vec<Step>,
    values: Vec<Value<P>>,
}

impl<const P: usize> Lists<P> {
    pub fn new(lists: usize) -> Self {
        Lists { heads: vec![0; lists], steps: Vec::new(), values: Vec::new() }
    }

    fn step(&self, link: u32) -> Option<&Step> {
        self.steps.get((link as usize).wrapping_sub(1))
    }

    /// The first step of a list that departs at a time or later, and the link to the one before it, 0 where there is none.
    fn find(&self, list: u32, ready: u32) -> (u32, Option<&Step>) {
        let (mut before, mut link) = (0, self.heads[list as usize]);
        while let Some(step) = self.step(link) {
            if step.departure >= ready {
                return (before, Some(step));
            }
            (before, link) = (link, step.next);
        }
        (before, None)
    }

    /// The front of a list for whoever is ready at a time.
    pub fn front(&self, list: u32, ready: u32) -> &[Value<P>] {
        self.find(list, ready).1.map_or(&[], |step| step.front.of(&self.values))
    }

    /// Takes in values at a departure: into its own front, and into those of earlier departures as far as they stand there.
    pub fn offer(&mut self, list: u32, departure: u32, offered: &[Value<P>], merged: &mut Vec<Value<P>>) {
        let (before, later) = self.find(list, departure);
        if !merge(later.map_or(&[], |step| step.front.of(&self.values)), offered, merged) {
            return;
        }
        if later.is_none_or(|step| step.departure > departure) {
            self.insert(list, before, departure, merged);
        }
        let mut link = self.heads[list as usize];
        while let Some(step) = self.steps.get_mut((link as usize).wrapping_sub(1)).filter(|step| step.departure <= departure) {
            if merge(step.front.of(&self.values), offered, merged) {
                step.front.put(&mut self.values, merged);
            }
            link = step.next;
        }
    }

    fn insert(&mut self, list: u32, before: u32, departure: u32, front: &[Value<P>]) {
        let begin = self.values.len() as u32;
        self.values.extend_from_slice(front);
        let added = self.steps.len() as u32 + 1;
        let link = match (before as usize).checked_sub(1) {
            Some(place) => &mut self.steps[place].next,
            None => &mut self.heads[list as usize],
        };
        let next = replace(link, added);
        self.steps.push(Step { departure, next, front: Span { begin, end: begin + front.len() as u32 } });
    }

    /// The points of a list by rising departure, those of one departure in the order of their values.
    pub fn points(&self, list: u32) -> Vec<(u32, Value<P>)> {
        let mut points = Vec::new();
        let mut link = self.heads[list as usize];
        while let Some(step) = self.step(link) {
            let later = self.step(step.next).map_or(&[][..], |step| step.front.of(&self.values));
            let own = step.front.of(&self.values).iter().filter(|value| !later.contains(value));
            points.extend(own.map(|value| (step.departure, *value)));
            link = step.next;
        }
        points.sort_unstable();
        points
    }
}
