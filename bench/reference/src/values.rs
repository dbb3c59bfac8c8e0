//! What journeys are worth, folded from their end.

const MOST_TRIPS: u32 = 65_535;

/// The time at the target, then the trips ridden, then the seconds of all footpaths: as many of them as the criterion has. The order
/// is that in which points of one departure are listed.
#[derive(Clone, Copy, PartialEq, Eq, PartialOrd, Ord)]
pub struct Value<const PARTS: usize>([u32; PARTS]);

impl<const PARTS: usize> Value<PARTS> {
    /// Being at the target at a time.
    pub fn arrive(time: u32) -> Self {
        let mut parts = [0; PARTS];
        parts[0] = time;
        Value(parts)
    }

    /// A ride ahead of what this value is of.
    pub fn ride(mut self) -> Self {
        if let Some(trips) = self.0.get_mut(1) {
            *trips = MOST_TRIPS.min(*trips + 1);
        }
        self
    }

    /// A footpath ahead of it.
    pub fn walk(mut self, seconds: u32) -> Self {
        if let Some(walked) = self.0.get_mut(2) {
            *walked = walked.saturating_add(seconds);
        }
        self
    }

    /// No greater in any part.
    pub fn no_worse(&self, other: &Self) -> bool {
        self.0.iter().zip(&other.0).all(|(part, other)| part <= other)
    }

    pub fn time(&self) -> u32 {
        self.0[0]
    }

    /// The further parts by their names in a reply.
    pub fn further(&self) -> impl Iterator<Item = (&'static str, u32)> {
        ["trips", "walked"].into_iter().zip(self.0.into_iter().skip(1))
    }
}
