//! The profile scan: connections once from the last to the first, a front for each trip and each stop.

use crate::fronts::{Labels, Lists, merge};
use crate::image::{Connection, Image};
use crate::values::Value;

pub struct Query {
    pub source: u32,
    pub target: u32,
    /// The first and the last second of departure, and the last of arrival.
    pub from: u32,
    pub until: u32,
    pub by: u32,
}

/// The seconds of the footpath from the source to the target, if there is one.
pub fn direct_walk(image: &Image, query: &Query) -> Option<u32> {
    let walks = image.walks_into(query.target);
    walks.iter().find(|[from, _]| *from == query.source).map(|[_, seconds]| *seconds)
}

/// Every departure with its value that no other journey's outdoes, by rising departure.
pub fn profile<const P: usize>(image: &Image, query: &Query) -> Vec<(u32, Value<P>)> {
    let mut scan = Scan::<P>::new(image, query);
    for connection in image.departing(query.from, query.by).rev() {
        scan.take(connection);
    }
    scan.answer.points(0)
}

struct Scan<'a, const P: usize> {
    image: &'a Image,
    query: &'a Query,
    /// One more than the seconds on foot from each stop to the target, 0 where there is no way.
    to_target: Vec<u32>,
    labels: Labels<P>,
    lists: Lists<P>,
    answer: Lists<P>,
    ways: Vec<Value<P>>,
    rides: Vec<Value<P>>,
    walked: Vec<Value<P>>,
    merged: Vec<Value<P>>,
}

impl<'a, const P: usize> Scan<'a, P> {
    fn new(image: &'a Image, query: &'a Query) -> Self {
        let mut to_target = vec![0; image.stops];
        for [from, seconds] in image.walks_into(query.target) {
            to_target[*from as usize] = seconds + 1;
        }
        to_target[query.target as usize] = 1;
        Scan {
            image,
            query,
            to_target,
            labels: Labels::new(image.trips),
            lists: Lists::new(image.stops),
            answer: Lists::new(1),
            ways: Vec::new(),
            rides: Vec::new(),
            walked: Vec::new(),
            merged: Vec::new(),
        }
    }

    fn take(&mut self, connection: Connection) {
        if connection.alights {
            self.find_ways(&connection);
            if !self.ways.is_empty() {
                self.labels.offer(connection.trip, &self.ways, &mut self.merged);
            }
        }
        if connection.boards {
            self.find_rides(&connection);
            if !self.rides.is_empty() {
                self.board(&connection);
            }
        }
    }

    /// How to go on where the connection is left: on foot to the target, or by a later trip.
    fn find_ways(&mut self, connection: &Connection) {
        self.ways.clear();
        let onward = self.lists.front(connection.to, connection.arrival);
        let seconds = self.to_target[connection.to as usize];
        let time = connection.arrival + seconds.saturating_sub(1);
        let reached = (seconds > 0 && time <= self.query.by).then(|| Value::arrive(time).walk(seconds - 1));
        if !merge(onward, reached.as_slice(), &mut self.ways) {
            self.ways.extend_from_slice(onward);
        }
    }

    /// What the trip leads to from here, but for what the answer outdoes already.
    fn find_rides(&mut self, connection: &Connection) {
        self.rides.clear();
        let labels = self.labels.of(connection.trip);
        if labels.is_empty() {
            return;
        }
        let found = self.answer.front(0, connection.departure);
        let rides = labels.iter().map(|value| value.ride());
        self.rides.extend(rides.filter(|ride| !found.iter().any(|other| other.no_worse(ride))));
    }

    /// Offers the rides to each stop from which one walks to the connection, and to the answer if one of them is the source.
    fn board(&mut self, connection: &Connection) {
        if connection.from == self.query.source {
            self.set_out(connection.departure, false);
        }
        for [stop, seconds] in self.image.walks_into(connection.from) {
            let Some(departure) = connection.departure.checked_sub(*seconds) else { continue };
            self.walked.clear();
            self.walked.extend(self.rides.iter().map(|ride| ride.walk(*seconds)));
            self.lists.offer(*stop, departure, &self.walked, &mut self.merged);
            if *stop == self.query.source && *stop != connection.from {
                self.set_out(departure, true);
            }
        }
    }

    /// Points of the answer, of the rides or of a footpath ahead of them, if they depart in the window.
    fn set_out(&mut self, departure: u32, on_foot: bool) {
        if (self.query.from..=self.query.until).contains(&departure) {
            let values = if on_foot { &self.walked } else { &self.rides };
            self.answer.offer(0, departure, values, &mut self.merged);
        }
    }
}
