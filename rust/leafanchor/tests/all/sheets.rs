//! Sheets of orders: counted one by one, collected, joined and fed in pieces; at 10,000 orders and past them; and
//! figures from outside, each at its greatest and one above.

use leafanchor::{
    calls, Job, Order, OrderBuf, Refusal, Sheet, SheetStream, WorkArea, SHEET_FEED, SHEET_FIGURES,
    SHEET_FRONT, SHEET_ORDERS, SHEET_TEXT, WORK_AREA,
};

const P1_PACKED: [u8; 44] = *include_bytes!("../../../../examples/p1.order");
const NO_JOBS: [u8; 4] = [0; 4];

/// Sizes of pieces.
const PIECES: [usize; 6] = [1, 2, 3, 7, 436, 65_537];

/// An order whose critical job is late.
fn late() -> OrderBuf {
    OrderBuf::pack(0, &[Job::critical(1).ready(0).length(10).deadline(9)]).unwrap()
}

/// Orders and bytes that are none, two of them past the longest order's size.
fn week() -> Vec<Vec<u8>> {
    let mut week = vec![NO_JOBS.to_vec(), vec![], vec![9], P1_PACKED.to_vec(), late().into_bytes()];
    week.extend([
        vec![0; 437],
        vec![9; 65_535],
        P1_PACKED[..43].to_vec(),
        P1_PACKED.to_vec(),
        NO_JOBS.to_vec(),
    ]);
    week
}

/// The bytes of a stream of these orders.
fn stream_of<B: AsRef<[u8]>>(orders: &[B]) -> Vec<u8> {
    let entry = |order: &B| [&(order.as_ref().len() as u16).to_be_bytes()[..], order.as_ref()].concat();
    orders.iter().flat_map(entry).collect()
}

/// A stream fed in pieces of this size.
fn fed(bytes: &[u8], piece: usize) -> SheetStream {
    let (mut stream, mut work) = (SheetStream::new(), WorkArea::boxed());
    bytes.chunks(piece).for_each(|piece| stream.feed(piece, &mut work).unwrap());
    stream
}

/// A sheet counted one by one.
fn counted<B: AsRef<[u8]>>(orders: &[B]) -> Sheet {
    let (mut sheet, mut work) = (Sheet::new(), WorkArea::boxed());
    orders.iter().for_each(|order| sheet.add(order.as_ref(), &mut work).unwrap());
    sheet
}

/// Two sheets joined.
fn joined(mut first: Sheet, second: &Sheet) -> Sheet {
    first.join(second).unwrap();
    first
}

#[test]
fn the_sheet_of_no_order() {
    let sheet = Sheet::new();
    assert_eq!((sheet.figures(), sheet), ([0; SHEET_FIGURES], Sheet::default()));
    assert_eq!((sheet.busiest(), sheet.ability(), sheet.loss()), (None, None, None));
    let lines = ["0\n"; 24].concat() + "-\n-\n-\n";
    assert_eq!(sheet.to_string(), lines.clone() + "whole");
    assert_eq!(SheetStream::new().to_string(), lines.clone() + "whole");
    assert_eq!(fed(&[0], 1).to_string(), lines + "cut");
    assert_eq!(Vec::<Vec<u8>>::new().iter().collect::<Sheet>(), sheet);
}

#[test]
fn every_order_counts_whatever_planning_says() {
    let sheet = counted(&week());
    assert_eq!((sheet.orders(), sheet.feasible()), (10, 4));
    assert_eq!([1, 2, 4, 11, 19].map(|number| sheet.refused(number)), [2, 1, 2, 1, 0]);
    assert_eq!([0, 20, u32::MAX].map(|number| sheet.refused(number)), [0; 3]);
    assert_eq!((sheet.offered_weight(), sheet.kept_weight(), sheet.jobs_kept()), (100, 70, 8));
    assert_eq!(sheet.busiest(), Some((14, 3)));
    assert_eq!((sheet.ability(), sheet.loss()), (Some((4, 5)), Some((3, 10))));
    assert_eq!(
        sheet.to_string(),
        "10\n2\n1\n0\n2\n0\n0\n0\n0\n0\n0\n1\n0\n0\n0\n0\n0\n0\n0\n0\n4\n100\n70\n8\n14 3\n4/5\n3/10\nwhole"
    );
    assert!(format!("{sheet:?}").contains("jobs_kept: 8, busiest: Some((14, 3))"));
}

#[test]
fn the_busiest_order_is_the_first_of_equal_ones_and_refused_ones_have_places() {
    assert_eq!(counted(&[NO_JOBS, NO_JOBS]).busiest(), Some((0, 0)));
    assert_eq!(counted(&[&[9][..], &NO_JOBS, &NO_JOBS]).busiest(), Some((0, 1)));
    let ties = [&NO_JOBS[..], &[9], &P1_PACKED, &NO_JOBS, &P1_PACKED];
    assert_eq!(counted(&ties).busiest(), Some((14, 2)));
    for at in 0..=ties.len() {
        assert_eq!(joined(counted(&ties[..at]), &counted(&ties[at..])).busiest(), Some((14, 2)));
    }
}

#[test]
fn a_fraction_is_in_lowest_terms() {
    let late = late();
    assert_eq!(counted(&[late.as_ref()]).ability(), Some((0, 1)));
    assert_eq!(counted(&[late.as_ref(), &NO_JOBS]).ability(), Some((1, 2)));
    assert_eq!(counted(&[[9]]).ability(), None);
    let kept = OrderBuf::pack(0, &[Job::optional(1).weight(50).ready(0).length(1).deadline(1)]).unwrap();
    assert_eq!(counted(&[kept]).loss(), Some((0, 1)));
    for figures in [counted(&week()), counted(&[late.as_ref()]), counted(&[NO_JOBS])] {
        let line =
            |fraction: Option<(u32, u32)>| fraction.map_or("-".to_string(), |(a, b)| format!("{a}/{b}"));
        let text = figures.to_string();
        assert!(text.ends_with(&format!("\n{}\n{}\nwhole", line(figures.ability()), line(figures.loss()))));
    }
}

#[test]
fn orders_of_every_kind_are_collected() {
    let p1 = Order::try_from(&P1_PACKED).unwrap();
    let two = counted(&[P1_PACKED, P1_PACKED]);
    assert_eq!([p1, p1].into_iter().collect::<Sheet>(), two);
    assert_eq!([p1, p1].iter().collect::<Sheet>(), two);
    assert_eq!(vec![OrderBuf::from(p1); 2].iter().collect::<Sheet>(), two);
    assert_eq!([&P1_PACKED[..]; 2].iter().collect::<Sheet>(), two);
    assert_eq!([P1_PACKED; 2].into_iter().collect::<Sheet>(), two);
    let mut sheet = Sheet::new();
    sheet.extend([p1]);
    sheet.extend([OrderBuf::from(p1)]);
    assert_eq!(sheet, two);
    assert_eq!(week().iter().collect::<Sheet>(), counted(&week()));
}

#[test]
fn a_stream_is_the_same_in_pieces_of_any_size() {
    let (week, whole) = (week(), counted(&week()));
    let bytes = stream_of(&week);
    for piece in PIECES {
        let stream = fed(&bytes, piece);
        assert_eq!((stream.sheet(), stream.is_cut(), stream.is_over()), (whole, false, false));
        assert_eq!(stream.to_string(), whole.to_string());
    }
    assert_eq!(fed(&bytes, bytes.len()).sheet(), whole);
    assert_eq!(fed(&stream_of(&[NO_JOBS; 3]), 3).sheet(), counted(&[NO_JOBS; 3]));
}

#[test]
fn a_stream_is_cut_but_at_an_entrys_edge() {
    let orders = [&NO_JOBS[..], &[], &P1_PACKED];
    let bytes = stream_of(&orders);
    let edges = [0, 6, 8, 54];
    for end in 0..=bytes.len() {
        let (stream, entries) =
            (fed(&bytes[..end], 7), edges.iter().filter(|&&edge| edge <= end).count() - 1);
        assert_eq!((stream.sheet(), stream.is_cut()), (counted(&orders[..entries]), !edges.contains(&end)));
        let last = if edges.contains(&end) { "whole" } else { "cut" };
        assert_eq!(stream.to_string(), stream.sheet().to_string().replace("whole", last));
    }
}

#[test]
fn sheets_join_as_their_lists_do() {
    let week = week();
    let whole = counted(&week);
    assert_eq!(joined(Sheet::new(), &Sheet::new()), Sheet::new());
    assert_eq!(joined(whole, &Sheet::new()), whole);
    assert_eq!(joined(Sheet::new(), &whole), whole);
    for one in 0..=week.len() {
        for two in one..=week.len() {
            let [a, b, c] = [&week[..one], &week[one..two], &week[two..]].map(counted);
            assert_eq!(joined(joined(a, &b), &c), whole);
            assert_eq!(joined(a, &joined(b, &c)), whole);
        }
    }
}

#[test]
fn there_are_10_000_orders_at_most() {
    let mut work = WorkArea::boxed();
    let most = SHEET_ORDERS as usize;
    let mut full: Sheet = std::iter::repeat(NO_JOBS).take(most).collect();
    assert_eq!((full.orders(), full.feasible(), full.is_over()), (SHEET_ORDERS, SHEET_ORDERS, false));
    let before = full;
    assert_eq!(full.add(&NO_JOBS, &mut work), Err(Refusal::NoSheet));
    assert_eq!(full.join(&counted(&[NO_JOBS])), Err(Refusal::NoSheet));
    assert_eq!(full, before);
    assert_eq!(joined(full, &Sheet::new()), before);
    let (front, behind) = (counted(&[NO_JOBS; 9]), std::iter::repeat(NO_JOBS).take(most - 9).collect());
    assert_eq!(joined(front, &behind), full);

    full.extend([P1_PACKED; 2]);
    assert_eq!((full.is_over(), full.orders(), full.feasible()), (true, SHEET_ORDERS + 1, SHEET_ORDERS));
    assert_eq!(full.to_string(), "18 0 0");
    assert_eq!(full, std::iter::repeat(NO_JOBS).collect());
    assert_eq!(full.figures()[1..], before.figures()[1..]);
    assert_eq!(full.add(&NO_JOBS, &mut work), Err(Refusal::NoSheet));
    assert_eq!(full.join(&Sheet::new()), Err(Refusal::NoSheet));
    assert_eq!(Sheet::new().join(&full), Err(Refusal::NoSheet));
    assert!(Sheet::from_figures(full.figures()).is_over());
    full.extend([NO_JOBS]);
    assert_eq!(full.orders(), SHEET_ORDERS + 1);
}

#[test]
fn a_stream_has_10_000_entries_at_most() {
    let mut work = WorkArea::boxed();
    let mut bytes = stream_of(&vec![NO_JOBS; SHEET_ORDERS as usize]);
    assert_eq!(fed(&bytes, 7).sheet(), std::iter::repeat(NO_JOBS).take(SHEET_ORDERS as usize).collect());
    // 10,000 and then a broken one is a sheet that is cut; one entry more, even of no bytes, is too many.
    bytes.push(0);
    let mut stream = fed(&bytes, 65_537);
    assert!(stream.is_cut() && !stream.is_over() && stream.to_string().ends_with("\ncut"));
    let whole = stream.clone();
    for piece in [&[0][..], &[0, 0, 4], &[], &[9; 1000]] {
        assert_eq!(stream.feed(piece, &mut work), Err(Refusal::NoSheet));
        assert_eq!((stream.is_over(), stream.sheet().orders()), (true, SHEET_ORDERS + 1));
        assert_eq!((stream.to_string(), stream.sheet().to_string()), ("18 0 0".into(), "18 0 0".into()));
    }
    assert_eq!(whole.sheet().orders(), SHEET_ORDERS);
    assert!(format!("{whole:?}").contains("known: 1, size: 0, got: 0"));
}

/// The greatest figures of two feasible orders and one that is refused.
fn greatest() -> [u32; SHEET_FIGURES] {
    let mut figures = [0; SHEET_FIGURES];
    for (at, figure) in [(0, 3), (11, 1), (20, 2), (21, 600), (22, 600), (23, 96), (24, 14_449), (25, 2)] {
        figures[at] = figure;
    }
    figures
}

/// Whether every call refuses figures from outside with 18 and leaves them.
fn is_refused(figures: [u32; SHEET_FIGURES]) -> bool {
    let sheet = Sheet::from_figures(figures);
    let (mut added, mut first, mut second) = (sheet, sheet, Sheet::new());
    let refusals =
        [added.add(&NO_JOBS, &mut WorkArea::boxed()), first.join(&Sheet::new()), second.join(&sheet)];
    let refused = refusals == [Err(Refusal::NoSheet); 3];
    assert!(refused || refusals == [Ok(()); 3]);
    assert_eq!(sheet.to_string() == "18 0 0", refused);
    assert!(!refused || (added, first, second) == (sheet, sheet, Sheet::new()));
    assert_eq!(refused_as_stream(figures), refused);
    refused
}

/// Whether the numbers of a stream with these figures are refused.
fn refused_as_stream(figures: [u32; SHEET_FIGURES]) -> bool {
    let mut feed = [0; SHEET_FEED];
    feed[..SHEET_FIGURES].copy_from_slice(&figures);
    refused_feed(feed)
}

/// Whether the numbers of a stream are refused with 18, and then left.
fn refused_feed(mut feed: [u32; SHEET_FEED]) -> bool {
    let before = feed;
    let answer = calls::sheet_feed(&mut feed, &mut [0; SHEET_FRONT], &[], &mut vec![7; WORK_AREA]);
    assert!(feed == before && [0, 18].contains(&answer.refusal));
    answer.refusal == 18
}

#[test]
fn figures_that_no_sheet_has_are_refused() {
    assert!(!is_refused(greatest()) && !is_refused([0; SHEET_FIGURES]));
    for at in 0..SHEET_FIGURES {
        for value in [greatest()[at] + 1, u32::MAX] {
            let mut figures = greatest();
            figures[at] = value;
            assert!(is_refused(figures), "{value} at {at}");
        }
    }
    // With no feasible order there is neither a point total nor a place; with one there is a total.
    for (at, value) in [(24, 1), (25, 1), (21, 1), (22, 1), (23, 1)] {
        let mut figures = counted(&[[9]; 2]).figures();
        figures[at] = value;
        assert!(is_refused(figures), "{value} at {at} with no feasible order");
    }
    let mut figures = counted(&[NO_JOBS]).figures();
    figures[24] = 0;
    assert!(is_refused(figures));
    let mut extended = Sheet::from_figures(figures);
    extended.extend([NO_JOBS]);
    assert_eq!(extended, Sheet::from_figures(figures));
}

#[test]
fn figures_of_10_000_orders_are_a_sheets_and_one_more_is_not() {
    let mut figures = [0; SHEET_FIGURES];
    for (at, figure) in [
        (0, 10_000),
        (20, 10_000),
        (21, 3_000_000),
        (22, 3_000_000),
        (23, 480_000),
        (24, 14_449),
        (25, 9_999),
    ] {
        figures[at] = figure;
    }
    let text = |figures| Sheet::from_figures(figures).to_string();
    assert!(text(figures).ends_with("\n3000000\n3000000\n480000\n14448 9999\n1/1\n0/1\nwhole"));
    assert!(!refused_as_stream(figures));
    for at in [0, 20, 21, 22, 23, 24, 25] {
        let mut more = figures;
        more[at] += 1;
        assert!(text(more) == "18 0 0" && refused_as_stream(more), "at {at}");
    }
    (figures[0], figures[20]) = (10_001, 10_001);
    assert!(text(figures) == "18 0 0" && refused_as_stream(figures));
    // No sum of figures wraps round.
    figures[1..=20].fill(u32::MAX);
    assert!(text(figures) == "18 0 0" && refused_as_stream(figures));
}

#[test]
fn numbers_that_no_stream_has_are_refused() {
    let held = |known, size, got| {
        let mut feed = [0; SHEET_FEED];
        feed[SHEET_FIGURES..].copy_from_slice(&[known, size, got]);
        refused_feed(feed)
    };
    for (known, size, got) in [(0, 0, 0), (1, 255, 0), (2, 1, 0), (2, 65_535, 65_534), (1, 0, 0)] {
        assert!(!held(known, size, got), "{known} {size} {got}");
    }
    for (known, size, got) in
        [(0, 1, 0), (0, 0, 1), (1, 256, 0), (1, 0, 1), (2, 0, 0), (2, 9, 9), (2, 65_536, 0), (3, 9, 0)]
    {
        assert!(held(known, size, got), "{known} {size} {got}");
    }
    assert!(held(u32::MAX, 0, 0) && held(2, u32::MAX, 0) && held(2, 9, u32::MAX));
}

#[test]
fn what_is_too_short_is_refused_before_what_is_no_sheet() {
    let (mut feed, mut front, mut work) = ([u32::MAX; SHEET_FEED], [7; SHEET_FRONT], vec![7; WORK_AREA]);
    let (figures, area, text) = (SHEET_FIGURES, WORK_AREA, &mut [7; SHEET_TEXT]);
    let more = [0; SHEET_FIGURES];
    assert_eq!(calls::sheet_add(&mut feed[..figures - 1], &[], &mut work).refusal, 10);
    assert_eq!(calls::sheet_add(&mut feed, &[], &mut work[..area - 1]).refusal, 10);
    assert_eq!(calls::sheet_add(&mut feed, &[], &mut work).refusal, 18);
    assert_eq!(calls::sheet_join(&mut feed[..figures - 1], &more).refusal, 10);
    assert_eq!(calls::sheet_join(&mut feed, &more[1..]).refusal, 10);
    assert_eq!(calls::sheet_join(&mut feed, &more).refusal, 18);
    assert_eq!(calls::sheet_feed(&mut feed[1..], &mut front, &[], &mut work).refusal, 10);
    assert_eq!(calls::sheet_feed(&mut feed, &mut front[1..], &[], &mut work).refusal, 10);
    assert_eq!(calls::sheet_feed(&mut feed, &mut front, &[], &mut work[1..]).refusal, 10);
    assert_eq!(calls::sheet_feed(&mut feed, &mut front, &[], &mut work).refusal, 18);
    assert_eq!(calls::sheet_text(&feed[..figures - 1], 0, text).refusal, 10);
    assert_eq!(calls::sheet_text(&feed, 0, &mut text[1..]).refusal, 10);
    assert_eq!(calls::sheet_text(&feed, 0, text).refusal, 18);
    assert!(feed == [u32::MAX; SHEET_FEED] && front == [7; SHEET_FRONT] && *text == [7; SHEET_TEXT]);
    assert!(work.iter().all(|&number| number == 7));
}

#[test]
fn the_work_area_is_cleared_whatever_the_order_is() {
    let more = |order: &[u8]| {
        let mut work = vec![7; WORK_AREA + 1];
        assert_eq!(calls::sheet_add(&mut [0; SHEET_FIGURES], order, &mut work).refusal, 0);
        work
    };
    let fed = |piece: &[u8]| {
        let mut work = vec![7; WORK_AREA + 1];
        let answer = calls::sheet_feed(&mut [0; SHEET_FEED], &mut [0; SHEET_FRONT], piece, &mut work);
        assert_eq!(answer.refusal, 0);
        work
    };
    let cleared = [vec![0; WORK_AREA], vec![7]].concat();
    assert!([&[][..], &[9], &NO_JOBS, &P1_PACKED, &[2; 2000]].iter().all(|order| more(order) == cleared));
    assert!([&[][..], &[0], &[0, 0], &[0, 9, 0]].iter().all(|piece| fed(piece) == cleared));
    // The piece with the 10,001st entry clears it, and one behind leaves it.
    let (mut feed, mut work) = ([0; SHEET_FEED], vec![7; WORK_AREA + 1]);
    let answer = calls::sheet_feed(&mut feed, &mut [0; SHEET_FRONT], &[0; 20_002], &mut work);
    assert!(answer.refusal == 18 && work == cleared);
    work.fill(7);
    let answer = calls::sheet_feed(&mut feed, &mut [0; SHEET_FRONT], &[], &mut work);
    assert!(answer.refusal == 18 && work.iter().all(|&number| number == 7));
}
