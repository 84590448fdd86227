//! Sheets over lists of orders, their text, and streams that come in pieces (R46 to R49), with the refusal 18.

use super::plans::{best_forward, point_total, Keep};
use super::{judged, Refused};
use trials::Job;

/// Numbers of a sheet, numbers held of a stream and bytes held of it.
pub const FIGURES: usize = 26;
pub const FEED: usize = 29;
pub const FRONT: usize = 437;

/// Orders of one sheet, at most.
pub const MOST_ORDERS: u32 = 10_000;

/// A sheet's numbers.
pub type Figures = [u32; FIGURES];

/// What planning says of an order, as far as a sheet counts it.
#[derive(Clone, Copy, Debug, PartialEq, Eq)]
pub enum Said {
    Refused(u32),
    Planned { offered: u32, kept: u32, jobs: u32, points: u32 },
}

/// What planning says of bytes with room enough.
pub fn said(bytes: &[u8]) -> Said {
    let order = match judged(bytes) {
        Ok(order) => order,
        Err(refused) => return Said::Refused(refused.number),
    };
    match best_forward(&order, Keep::Needed) {
        None => Said::Refused(11),
        Some(best) => Said::Planned {
            offered: order.jobs.iter().map(|job: &Job| job.weight as u32).sum(),
            kept: best.weight as u32,
            jobs: best.choice.count_ones(),
            points: point_total(&order) as u32,
        },
    }
}

/// The sheet of a list, each figure from its line in R46.
pub fn sheet_of(list: &[Said]) -> Figures {
    let count = |wanted: Said| list.iter().filter(|&&said| said == wanted).count() as u32;
    let mut figures = [0; FIGURES];
    figures[0] = list.len() as u32;
    (1..=19).for_each(|number| figures[number] = count(Said::Refused(number as u32)));
    let mut greatest = None;
    for (place, said) in (0..).zip(list) {
        if let Said::Planned { offered, kept, jobs, points } = *said {
            [1, offered, kept, jobs].iter().zip(&mut figures[20..24]).for_each(|(more, sum)| *sum += more);
            if greatest.map_or(true, |most| points > most) {
                greatest = Some(points);
                (figures[24], figures[25]) = (points + 1, place);
            }
        }
    }
    figures
}

/// Every way in which figures are not those of a sheet (R49).
pub fn faults(figures: &Figures) -> Vec<&'static str> {
    let [orders, feasible, offered, kept, jobs, top, place] =
        [0, 20, 21, 22, 23, 24, 25].map(|at| u64::from(figures[at]));
    let judged: u64 = figures[1..=20].iter().copied().map(u64::from).sum();
    let conditions = [
        ("orders above 10,000", orders > u64::from(MOST_ORDERS)),
        ("orders that are not all judged", judged < orders),
        ("more judged than orders", judged > orders),
        ("weight offered", offered > 300 * feasible),
        ("weight kept", kept > offered),
        ("jobs kept", jobs > 48 * feasible),
        ("no point total", feasible > 0 && top == 0),
        ("point total", feasible > 0 && top > 14_449),
        ("place", feasible > 0 && place >= orders),
        ("point total of none", feasible == 0 && top > 0),
        ("place of none", feasible == 0 && place > 0),
    ];
    conditions.iter().filter(|(_, holds)| *holds).map(|(name, _)| *name).collect()
}

/// Every way in which the three numbers behind a stream's sheet are not what has come of an entry (R48, R49).
pub fn part_faults(part: [u32; 3]) -> Vec<&'static str> {
    let [known, size, got] = part;
    let conditions = [
        ("known above 2", known > 2),
        ("a size before a length", known == 0 && size > 0),
        ("bytes before a length", known < 2 && got > 0),
        ("half a length above 255", known == 1 && size > 255),
        ("a length above 65,535", known == 2 && size > 65_535),
        ("an entry that is whole", known == 2 && got >= size),
    ];
    conditions.iter().filter(|(_, holds)| *holds).map(|(name, _)| *name).collect()
}

/// One list's figures behind another's.
fn behind(first: &Figures, second: &Figures) -> Figures {
    let mut both = *first;
    both[..24].iter_mut().zip(second).for_each(|(sum, more)| *sum += more);
    if second[24] > first[24] {
        (both[24], both[25]) = (second[24], first[0] + second[25]);
    }
    both
}

/// Two sheets joined, or refusal 18.
pub fn joined(first: &Figures, second: &Figures) -> Result<Figures, Refused> {
    let together = u64::from(first[0]) + u64::from(second[0]);
    if !faults(first).is_empty() || !faults(second).is_empty() || together > u64::from(MOST_ORDERS) {
        return Err(Refused::new(18));
    }
    Ok(behind(first, second))
}

/// The first entry of a stream, and what comes behind it; none where it is not whole.
fn first_entry(stream: &[u8]) -> Option<(&[u8], &[u8])> {
    let length = 256 * usize::from(*stream.first()?) + usize::from(*stream.get(1)?);
    Some((stream.get(2..2 + length)?, &stream[2 + length..]))
}

/// The whole entries of a stream, and what is left behind them.
pub fn entries(stream: &[u8]) -> (Vec<&[u8]>, &[u8]) {
    let (mut entries, mut rest) = (vec![], stream);
    while let Some((entry, behind)) = first_entry(rest) {
        entries.push(entry);
        rest = behind;
    }
    (entries, rest)
}

/// What is held of a stream.
#[derive(Clone, Debug, PartialEq, Eq)]
pub struct Held {
    pub feed: [u32; FEED],
    pub front: Vec<u8>,
}

impl Held {
    /// The sheet's numbers.
    pub fn figures(&self) -> Figures {
        self.feed[..FIGURES].try_into().expect("there are more")
    }

    /// What has come of the next entry.
    pub fn part(&self) -> [u32; 3] {
        self.feed[FIGURES..].try_into().expect("there are three more")
    }

    /// The bytes of the stream from the next entry's length on, as far as they have come. Those past the front are not
    /// held; no refusal depends on them.
    fn begun(&self) -> Vec<u8> {
        let [known, size, got] = self.part();
        let length = [(size / 256) as u8, (size % 256) as u8];
        let bytes = self.front.iter().copied().chain(std::iter::repeat(0)).take(got as usize);
        match known {
            0 => vec![],
            1 => vec![size as u8],
            _ => length.iter().copied().chain(bytes).collect(),
        }
    }

    /// Puts the bytes of an entry, or those that have come of it, where they stand in it.
    fn keep(&mut self, entry: &[u8]) {
        self.front.iter_mut().zip(entry).for_each(|(kept, byte)| *kept = *byte);
    }

    /// Sets the numbers.
    fn put(&mut self, figures: Figures, part: [u32; 3]) {
        self.feed[..FIGURES].copy_from_slice(&figures);
        self.feed[FIGURES..].copy_from_slice(&part);
    }

    /// Takes a piece. Refusal 18 where the numbers are no stream's, which changes nothing, or where there are more than
    /// 10,000 whole entries then.
    pub fn feed(&mut self, piece: &[u8]) -> Result<(), Refused> {
        let figures = self.figures();
        if !faults(&figures).is_empty() || !part_faults(self.part()).is_empty() {
            return Err(Refused::new(18));
        }
        let stream = [self.begun(), piece.to_vec()].concat();
        let (mut entries, rest) = entries(&stream);
        let left = (MOST_ORDERS + 1 - figures[0]) as usize;
        let over = entries.len() >= left;
        entries.truncate(left);
        entries.iter().for_each(|entry| self.keep(entry));
        let list: Vec<Said> = entries.iter().map(|entry| said(entry)).collect();
        let figures = behind(&figures, &sheet_of(&list));
        if over {
            self.put(figures, [0; 3]);
            return Err(Refused::new(18));
        }
        self.keep(rest.get(2..).unwrap_or(&[]));
        let part = match *rest {
            [] => [0; 3],
            [high] => [1, u32::from(high), 0],
            [high, low, ..] => [2, 256 * u32::from(high) + u32::from(low), rest.len() as u32 - 2],
        };
        self.put(figures, part);
        Ok(())
    }
}

/// A fraction in lowest terms: both numbers over the greatest divisor of the upper one that divides the lower one too.
fn fraction(upper: u32, lower: u32) -> String {
    if lower == 0 {
        return "-".to_string();
    }
    if upper == 0 {
        return "0/1".to_string();
    }
    let pairs = (1..).take_while(|d| d * d <= u64::from(upper)).filter(|d| u64::from(upper) % d == 0);
    let divisors = pairs.flat_map(|d| [d as u32, upper / d as u32]);
    let greatest = divisors.filter(|d| lower % d == 0).max().unwrap_or(1);
    format!("{}/{}", upper / greatest, lower / greatest)
}

/// A sheet's lines of R47 but the last, or refusal 18.
pub fn lines(figures: &Figures) -> Result<Vec<String>, Refused> {
    if !faults(figures).is_empty() {
        return Err(Refused::new(18));
    }
    let mut lines: Vec<String> = figures[..24].iter().map(u32::to_string).collect();
    lines.push(match figures[24] {
        0 => "-".to_string(),
        top => format!("{} {}", top - 1, figures[25]),
    });
    lines.push(fraction(figures[20], figures[20] + figures[11]));
    lines.push(fraction(figures[21] - figures[22], figures[21]));
    Ok(lines)
}

/// A sheet's text, or refusal 18.
pub fn text(figures: &Figures, cut: bool) -> Result<String, Refused> {
    let mut lines = lines(figures)?;
    lines.push(if cut { "cut" } else { "whole" }.to_string());
    Ok(lines.iter().map(|line| line.clone() + "\n").collect())
}
