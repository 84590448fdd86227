//! Sheets: one order more, two of them joined, their text, and streams in pieces.

use super::{unless, Trial};
use crate::inputs;
use crate::lent::{After, Lent};
use crate::reference::{self, Figures, Held, Refused, Said, FEED, FIGURES, FRONT, MOST_ORDERS};
use crate::sheet_inputs;
use leafanchor::calls::{self, SheetAnswer, SheetTextAnswer};
use leafanchor::{Sheet, SheetStream};
use trials::answer;

/// Bytes that a text asks room for.
const TEXT: usize = 336;

impl Trial {
    /// Numbers lent to a call: these at the front, with as much room as they need, less, or more.
    fn lent_numbers(&mut self, numbers: &[u32]) -> Lent<u32> {
        let room = inputs::room(&mut self.random, numbers.len());
        let more = (numbers.len()..room).map(|_| self.junk() as u32);
        let lent: Vec<u32> = numbers.iter().copied().chain(more).take(room).collect();
        Lent::given(&lent, || self.junk() as u32)
    }

    /// Counts one order more.
    pub fn sheet_add(&mut self) {
        let figures = sheet_inputs::maybe_damaged(&mut self.random);
        let order = sheet_inputs::order(&mut self.random);
        let mut lent = self.lent_numbers(&figures);
        let mut read = Lent::given(&order, || self.junk() as u8);
        let given = calls::sheet_add(lent.lend(), read.lend(), self.work.lend(&mut self.random));
        let room = lent.lend().len();
        let one = reference::sheet_of(&[reference::said(&order)]);
        let counted = reference::joined(&figures, &one);
        let wanted = unless(room >= FIGURES && self.work.is_enough(), 10).and(counted);
        let after = if wanted.is_ok() { After::Cleared } else { After::Untouched };
        let memory = lent.holds(wanted.as_ref().map_or(&[][..], |figures| &figures[..]))
            && read.holds(&order)
            && self.work.holds(after);
        self.tally.sheets.count_room("add's figures", FIGURES, room);
        self.tally.sheets.count_added(&figures, &one);
        let refusal = number_of(&wanted);
        let input = (&figures, &order);
        self.tally.compare(
            "sheet_add",
            (given.refusal, given, memory),
            answer!(SheetAnswer { refusal }),
            &input,
        );

        let mut sheet = Sheet::from_figures(figures);
        let given = sheet.add(&order, &mut self.typed_work).map(|()| sheet.figures());
        self.compare_types("Sheet::add", given, counted, &input);
    }

    /// Joins two sheets.
    pub fn sheet_join(&mut self) {
        let (first, second) = sheet_inputs::pair(&mut self.random);
        let (mut to, mut from) = (self.lent_numbers(&first), self.lent_numbers(&second));
        let given = calls::sheet_join(to.lend(), from.lend());
        let rooms = [to.lend().len(), from.lend().len()];
        let both = reference::joined(&first, &second);
        let wanted = unless(rooms.iter().all(|&room| room >= FIGURES), 10).and(both);
        let memory = to.holds(wanted.as_ref().map_or(&[][..], |figures| &figures[..])) && from.holds(&[]);
        self.tally.sheets.count_room("join's figures", FIGURES, rooms[0]);
        self.tally.sheets.count_room("join's more", FIGURES, rooms[1]);
        self.tally.sheets.count_joined(&first, &second);
        let refusal = number_of(&wanted);
        let input = (&first, &second);
        self.tally.compare(
            "sheet_join",
            (given.refusal, given, memory),
            answer!(SheetAnswer { refusal }),
            &input,
        );

        let mut sheet = Sheet::from_figures(first);
        let given = sheet.join(&Sheet::from_figures(second)).map(|()| sheet.figures());
        self.compare_types("Sheet::join", given, both, &input);
    }

    /// Writes the text of figures.
    pub fn sheet_text(&mut self) {
        let figures = sheet_inputs::maybe_damaged(&mut self.random);
        let cut = self.random.one_of(&[0, 0, 1, 2, 256, 1 << 31, u32::MAX]);
        let mut read = self.lent_numbers(&figures);
        let mut lent = Lent::new(inputs::room(&mut self.random, TEXT), || self.junk() as u8);
        let given = calls::sheet_text(read.lend(), cut, lent.lend());
        let rooms = [read.lend().len(), lent.lend().len()];
        let text = reference::text(&figures, cut != 0);
        let roomy = unless(rooms[0] >= FIGURES && rooms[1] >= TEXT, 10).and_then(|()| text.clone());
        let (wanted, written) = match &roomy {
            Ok(text) => (answer!(SheetTextAnswer { bytes: text.len() }), text.as_bytes()),
            Err(refused) => (answer!(SheetTextAnswer { refusal: refused.number }), &[][..]),
        };
        let memory = lent.holds(written) && read.holds(&[]);
        self.tally.sheets.count_room("text's figures", FIGURES, rooms[0]);
        self.tally.sheets.count_room("text's bytes", TEXT, rooms[1]);
        self.tally.sheets.count_text(&figures, written.len());
        self.tally.compare("sheet_text", (given.refusal, given, memory), wanted, &(&figures, cut));
        self.typed_text(&figures);
    }

    /// `Sheet` shows its lines and its fractions as the reference does, or 18.
    fn typed_text(&mut self, figures: &Figures) {
        let sheet = Sheet::from_figures(*figures);
        let shown = sheet.to_string();
        let fraction = |of: Option<(u32, u32)>| of.map_or("-".to_string(), |(a, b)| format!("{a}/{b}"));
        let busiest = sheet.busiest().map_or("-".to_string(), |(points, place)| format!("{points} {place}"));
        let behind = [busiest, fraction(sheet.ability()), fraction(sheet.loss())].join("\n");
        let given = if shown == "18 0 0" { Err(leafanchor::Refusal::NoSheet) } else { Ok((shown, behind)) };
        let wanted = reference::lines(figures).map(|lines| {
            let whole = lines.join("\n") + "\nwhole";
            (whole, lines[24..].join("\n"))
        });
        self.compare_types("Sheet shown", given, wanted, figures);
    }

    /// Feeds any piece to what is held of any stream.
    pub fn sheet_feed(&mut self) {
        let held = sheet_inputs::held(&mut self.random);
        let piece = sheet_inputs::piece(&mut self.random);
        self.feed_once(&held, &piece);
    }

    /// Feeds a short stream in two pieces wherever it can be parted, and in pieces of one size each.
    pub fn sheet_pieces(&mut self) {
        let entries = 1 + self.random.below(4);
        let orders: Vec<Vec<u8>> = (0..entries).map(|_| sheet_inputs::order(&mut self.random)).collect();
        let bytes: Vec<u8> =
            orders.iter().flat_map(|order| sheet_inputs::entry(&order[..order.len().min(900)])).collect();
        let held = sheet_inputs::begun(&mut self.random);
        let whole = self.feed_pieces(&held, &[&bytes]);
        for cut in 0..=bytes.len().min(700) {
            let (first, second) = bytes.split_at(cut);
            let parted = self.feed_pieces(&held, &[first, second]);
            assert_eq!(parted, whole, "the reference depends on how a stream is parted");
        }
        for size in [1, 2, 3, 7] {
            let pieces: Vec<&[u8]> = bytes.chunks(size).take(1_000).collect();
            self.feed_pieces(&held, &pieces);
        }
        self.typed_stream(&bytes);
    }

    /// Feeds entries to a stream that has nearly too many, and behind them.
    pub fn sheet_past_10_000(&mut self) {
        let mut held = sheet_inputs::begun(&mut self.random);
        let orders = MOST_ORDERS - self.random.below(4) as u32;
        held.feed[..FIGURES].copy_from_slice(&sheet_inputs::figures_of(&mut self.random, orders));
        let pieces: Vec<Vec<u8>> = (0..3)
            .map(|_| {
                let entries = self.random.below(4);
                sheet_inputs::stream(&mut self.random, entries)
            })
            .collect();
        let pieces: Vec<&[u8]> = pieces.iter().map(|piece| &piece[..]).collect();
        self.feed_pieces(&held, &pieces);
    }

    /// A stream of 10,000 entries, with a broken one behind them and with one more.
    pub fn sheet_of_10_000(&mut self) {
        let orders: Vec<Vec<u8>> = (0..40).map(|_| sheet_inputs::order(&mut self.random)).collect();
        let entry = |at: usize| sheet_inputs::entry(&orders[at % 40][..orders[at % 40].len().min(50)]);
        let mut bytes: Vec<u8> = (0..MOST_ORDERS as usize).flat_map(entry).collect();
        let held = sheet_inputs::begun(&mut self.random);
        for more in [&[][..], &[0], &[0], &[0, 0, 0, 0]] {
            bytes.extend(more);
            let full = self.feed_pieces(&held, &[&bytes]);
            assert_eq!(full, self.feed_pieces(&held, &bytes.chunks(65_537).collect::<Vec<_>>()));
            self.typed_stream(&bytes);
        }
    }

    /// Feeds pieces one behind the other, each until there is room for it; gives what is held then.
    fn feed_pieces(&mut self, held: &Held, pieces: &[&[u8]]) -> Held {
        let mut held = held.clone();
        for piece in pieces {
            let mut next = self.feed_once(&held, piece);
            while next.is_none() {
                next = self.feed_once(&held, piece);
            }
            held = next.unwrap_or(held);
        }
        held
    }

    /// Feeds a piece; gives what the reference then holds, none where a buffer was too short.
    fn feed_once(&mut self, held: &Held, piece: &[u8]) -> Option<Held> {
        let mut feed = self.lent_numbers(&held.feed);
        let room = inputs::room(&mut self.random, FRONT);
        let more = (FRONT..room).map(|_| self.junk() as u8);
        let front: Vec<u8> = held.front.iter().copied().chain(more).take(room).collect();
        let mut front = Lent::given(&front, || self.junk() as u8);
        let mut read = Lent::given(piece, || self.junk() as u8);
        let given =
            calls::sheet_feed(feed.lend(), front.lend(), read.lend(), self.work.lend(&mut self.random));
        let rooms = [feed.lend().len(), front.lend().len()];
        self.tally.sheets.count_room("feed's numbers", FEED, rooms[0]);
        self.tally.sheets.count_room("feed's front", FRONT, rooms[1]);
        let roomy = rooms[0] >= FEED && rooms[1] >= FRONT && self.work.is_enough();
        let mut next = held.clone();
        let fed = unless(roomy, 10).and_then(|()| next.feed(piece));
        // Refused with 18 the work area is left, but not where this piece went past 10,000 entries.
        let went_past = next.feed[0] > MOST_ORDERS && held.feed[0] <= MOST_ORDERS;
        let after = if fed.is_ok() || went_past { After::Cleared } else { After::Untouched };
        let written: (&[u32], &[u8]) = if roomy { (&next.feed, &next.front) } else { (&[], &[]) };
        let memory =
            feed.holds(written.0) && front.holds(written.1) && read.holds(piece) && self.work.holds(after);
        let refusal = number_of(&fed);
        self.tally.compare(
            "sheet_feed",
            (given.refusal, given, memory),
            answer!(SheetAnswer { refusal }),
            &(held, piece),
        );
        if !roomy {
            return None;
        }
        self.tally.sheets.count_fed(held, &next, piece.len());
        Some(next)
    }

    /// `SheetStream`, fed in pieces of any sizes, has the sheet of the stream's whole entries, and so has one that is
    /// collected.
    fn typed_stream(&mut self, bytes: &[u8]) {
        let (entries, rest) = reference::entries(bytes);
        let (mut stream, mut fed, mut left) = (SheetStream::new(), Ok(()), bytes);
        while !left.is_empty() {
            let size = 1 + self.random.below(left.len().min(3_000));
            fed = stream.feed(&left[..size], &mut self.typed_work);
            left = &left[size..];
        }
        let over = entries.len() > MOST_ORDERS as usize;
        let list: Vec<Said> = entries.iter().map(|entry| reference::said(entry)).collect();
        let figures = reference::sheet_of(&list);
        let wanted = unless(!over, 18).and_then(|()| reference::text(&figures, !rest.is_empty()));
        let given = fed.map(|()| stream.to_string() + "\n");
        assert_eq!((stream.is_over(), over || stream.is_cut() != rest.is_empty()), (over, true));
        self.compare_types("SheetStream shown", given, wanted, &bytes);
        let sheet: Sheet = entries.iter().collect();
        let given = if sheet.is_over() { Err(leafanchor::Refusal::NoSheet) } else { Ok(sheet.figures()) };
        self.compare_types("Sheet collected", given, unless(!over, 18).map(|()| figures), &bytes);
    }
}

/// The number of a refusal, 0 for none.
fn number_of<A>(given: &Result<A, Refused>) -> u32 {
    given.as_ref().map_or_else(|refused| refused.number, |_| 0)
}
