//! An image (docs/IMAGE.md, layouts 1 and 2), read in place. Its magic, layout and length are compared; all else is trusted.

use std::collections::HashMap;

const MAGIC: u32 = 0x5041_5343;
const HEADER: usize = 9;
const ROW: usize = 6;
const BOARD: u32 = 1;
const ALIGHT: u32 = 2;

#[derive(Clone, Copy)]
pub struct Connection {
    pub from: u32,
    pub to: u32,
    pub departure: u32,
    pub arrival: u32,
    pub trip: u32,
    pub boards: bool,
    pub alights: bool,
}

pub struct Image {
    pub stops: usize,
    pub trips: usize,
    words: Vec<u32>,
    connections: usize,
    /// The least stop of each name.
    stop_of: HashMap<Vec<u8>, u32>,
}

impl Image {
    /// Reads an image; `None` where the bytes are none by their first two words or their length.
    pub fn read(bytes: &[u8]) -> Option<Image> {
        let (quads, rest) = bytes.as_chunks::<4>();
        let words: Vec<u32> = quads.iter().map(|quad| u32::from_le_bytes(*quad)).collect();
        let &[MAGIC, layout @ (1 | 2), stops, trips, connections, footpaths, letters, _, _, ..] = &words[..] else {
            return None;
        };
        let [stops, trips, connections, footpaths, letters] =
            [stops, trips, connections, footpaths, letters].map(|count| count as usize);
        let names = HEADER + ROW * connections + stops + 1 + 2 * footpaths;
        let text = names + stops + trips + 1 + trips * layout as usize;
        if !rest.is_empty() || words.len() != text + letters.div_ceil(4) {
            return None;
        }
        let mut stop_of = HashMap::with_capacity(stops);
        for stop in 0..stops {
            let [begin, end] = [words[names + stop], words[names + stop + 1]].map(|place| 4 * text + place as usize);
            stop_of.entry(bytes[begin..end].to_vec()).or_insert(stop as u32);
        }
        Some(Image { stops, trips, words, connections, stop_of })
    }

    pub fn find(&self, name: &[u8]) -> Option<u32> {
        self.stop_of.get(name).copied()
    }

    /// The connections by departure, from a time on and before another.
    pub fn departing(&self, from: u32, before: u32) -> impl DoubleEndedIterator<Item = Connection> + '_ {
        let (rows, _) = self.words[HEADER..HEADER + ROW * self.connections].as_chunks::<ROW>();
        let [begin, end] = [from, before].map(|time| rows.partition_point(|row| row[2] < time));
        rows[begin..end.max(begin)].iter().map(|&[from, to, departure, arrival, trip, flags]| Connection {
            from,
            to,
            departure,
            arrival,
            trip,
            boards: flags & BOARD != 0,
            alights: flags & ALIGHT != 0,
        })
    }

    /// The footpaths into a stop: the stop that each leaves, and its seconds.
    pub fn walks_into(&self, stop: u32) -> &[[u32; 2]] {
        let index = &self.words[HEADER + ROW * self.connections..];
        let [begin, end] = [index[stop as usize], index[stop as usize + 1]].map(|place| 2 * place as usize);
        index[self.stops + 1 + begin..self.stops + 1 + end].as_chunks().0
    }
}
