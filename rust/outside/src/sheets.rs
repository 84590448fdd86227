//! Counts of what the answers on sheets and streams turned on.

use crate::reference::{self, Figures, Held, FIGURES, MOST_ORDERS};
use std::cmp::Ordering;
use std::collections::BTreeMap;

/// Pieces that are fed in a run, at least.
const MANY_PIECES: usize = 50_000;

/// The ways in which figures, and the numbers behind a stream's, are none: each is met by itself.
const FAULTS: usize = 11;
const PART_FAULTS: usize = 6;

/// Buffers of the calls of sheets beside the work area.
const BUFFERS: usize = 7;

/// How often the inputs came to what sheets and streams turn on.
#[derive(Default)]
pub struct Sheets {
    /// Figures that have one fault alone, by the fault; and those whose judged orders wrap round in 32 bits.
    faults: BTreeMap<&'static str, usize>,
    wrapping: usize,
    /// Sheets with each figure at its greatest: orders, weight offered and kept, jobs, point total and place.
    greatest: [usize; 6],
    /// Orders added to a sheet: feasible with a greater point total, with the same and with a lesser one, and refused.
    added: BTreeMap<Option<Ordering>, usize>,
    /// Orders added to a full sheet.
    to_full: usize,
    /// Sheets joined, by how the second's point total compares; with none of orders first, and behind.
    joined: BTreeMap<Ordering, usize>,
    none_first: usize,
    none_behind: usize,
    /// Sheets of 10,000 orders together, and of 10,001.
    just_full: usize,
    one_more: usize,
    /// The longest text.
    longest: usize,
    /// Pieces, those of no bytes, and those that began at an entry's edge, in a length and in an entry, and ended so.
    pieces: usize,
    empty: usize,
    began: [usize; 3],
    ended: [usize; 3],
    /// Pieces that end in an entry past the front.
    past_front: usize,
    /// Pieces with which a stream comes to 10,000 entries, goes past them, and comes behind.
    filled: usize,
    went_past: usize,
    behind: usize,
    /// Rooms by the buffer: short by one, just enough, and more.
    rooms: BTreeMap<(&'static str, Ordering), usize>,
}

impl Sheets {
    /// Counts the room of a buffer, unless it is shorter by more than one.
    pub fn count_room(&mut self, buffer: &'static str, needed: usize, room: usize) {
        if room + 1 >= needed {
            *self.rooms.entry((buffer, room.cmp(&needed))).or_default() += 1;
        }
    }

    /// Counts figures, by their one fault or by what is at its greatest; gives whether they are a sheet's.
    fn count_figures(&mut self, figures: &Figures) -> bool {
        let faults = reference::faults(figures);
        if let [fault] = faults[..] {
            *self.faults.entry(fault).or_default() += 1;
            let judged = figures[1..=20].iter().fold(0, |sum: u32, more| sum.wrapping_add(*more));
            self.wrapping += usize::from(fault == "more judged than orders" && judged == figures[0]);
        }
        let [orders, feasible, offered, kept, jobs, top, place] =
            [0, 20, 21, 22, 23, 24, 25].map(|at| figures[at]);
        if faults.is_empty() && feasible > 0 {
            let met = [
                orders == MOST_ORDERS,
                offered == 300 * feasible,
                kept == offered && offered > 0,
                jobs == 48 * feasible,
                top == 14_449,
                place + 1 == orders,
            ];
            self.greatest.iter_mut().zip(met).for_each(|(count, met)| *count += usize::from(met));
        }
        faults.is_empty()
    }

    /// Counts an order that is added, as the sheet of it alone.
    pub fn count_added(&mut self, figures: &Figures, one: &Figures) {
        if !self.count_figures(figures) {
            return;
        }
        self.to_full += usize::from(figures[0] == MOST_ORDERS);
        let feasible = one[20] == 1;
        *self.added.entry(Some(one[24].cmp(&figures[24])).filter(|_| feasible)).or_default() += 1;
    }

    /// Counts two sheets that are joined.
    pub fn count_joined(&mut self, first: &Figures, second: &Figures) {
        if !self.count_figures(first) | !self.count_figures(second) {
            return;
        }
        *self.joined.entry(second[24].cmp(&first[24])).or_default() += 1;
        self.none_first += usize::from(first[0] == 0);
        self.none_behind += usize::from(second[0] == 0);
        self.just_full += usize::from(first[0] + second[0] == MOST_ORDERS);
        self.one_more += usize::from(first[0] + second[0] == MOST_ORDERS + 1);
    }

    /// Counts a text by its length.
    pub fn count_text(&mut self, figures: &Figures, bytes: usize) {
        self.count_figures(figures);
        self.longest = self.longest.max(bytes);
    }

    /// Counts a piece by what was held before and is held then.
    pub fn count_fed(&mut self, before: &Held, then: &Held, bytes: usize) {
        let faults = reference::part_faults(before.part());
        let is_sheet = self.count_figures(&before.figures());
        self.behind += usize::from(before.feed[0] == MOST_ORDERS + 1 && faults.is_empty());
        if let ([fault], true) = (&faults[..], is_sheet) {
            *self.faults.entry(fault).or_default() += 1;
        }
        if !faults.is_empty() || !is_sheet {
            return;
        }
        self.pieces += 1;
        self.empty += usize::from(bytes == 0);
        self.began[before.feed[FIGURES] as usize] += 1;
        if then.feed[0] > MOST_ORDERS {
            self.went_past += 1;
            return;
        }
        self.ended[then.feed[FIGURES] as usize] += 1;
        self.past_front += usize::from(then.feed[FIGURES + 2] as usize > then.front.len());
        self.filled += usize::from(before.feed[0] < MOST_ORDERS && then.feed[0] == MOST_ORDERS);
    }

    /// Prints the counts; true if each was met, and so many pieces were fed.
    pub fn report(&self) -> bool {
        println!("figures that no sheet or stream has, by their one fault: {:?}", self.faults);
        println!(
            "orders whose sum wraps round in 32 bits: {}; sheets with a figure at its greatest: {:?}",
            self.wrapping, self.greatest
        );
        println!(
            "orders added by how their point total compares, none if refused: {:?}; to 10,000: {}",
            self.added, self.to_full
        );
        let Sheets { none_first, none_behind, just_full, one_more, .. } = *self;
        println!(
            "sheets joined by the second's point total: {:?}; {none_first} behind none, {none_behind} before none, \
             {just_full} of 10,000, {one_more} of 10,001; the longest text {} bytes",
            self.joined, self.longest
        );
        let Sheets { pieces, empty, began, ended, past_front, filled, went_past, behind, .. } = *self;
        println!(
            "pieces of streams: {pieces}, {empty} of no bytes; begun at an edge, in a length and in an entry: \
             {began:?}, ended so: {ended:?}, {past_front} past the front; {filled} come to 10,000, {went_past} go \
             past, {behind} come behind"
        );
        let rooms = self.rooms.iter().map(|((buffer, room), count)| format!("{buffer} {room:?} {count}"));
        println!("room of sheets: {}", rooms.collect::<Vec<_>>().join(", "));
        pieces >= MANY_PIECES
            && self.faults.len() == FAULTS + PART_FAULTS
            && self.added.len() == 4
            && self.joined.len() == 3
            && self.rooms.len() == 3 * BUFFERS
            && self.longest > 0
            && [self.wrapping, self.to_full, none_first, none_behind, just_full, one_more]
                .iter()
                .chain(&self.greatest)
                .chain(&began)
                .chain(&ended)
                .chain(&[empty, past_front, filled, went_past, behind])
                .all(|&seen| seen > 0)
    }
}
