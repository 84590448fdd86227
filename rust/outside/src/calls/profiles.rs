//! Lookup, better-of and extending.

use super::{numbers_of, points_of, unless, Trial};
use crate::inputs;
use crate::lent::{After, Lent};
use crate::reference::{self, Point, Refused};
use leafanchor::calls::{self, BetterAnswer, ExtendAnswer, LookupAnswer};
use leafanchor::{Profile, PROFILE_ROOM};
use trials::answer;

impl Trial {
    /// Looks times up in numbers of any kind.
    pub fn lookup(&mut self) {
        let profile = inputs::profile(&mut self.random);
        let times: Vec<i32> = profile.iter().step_by(2).copied().collect();
        let t = inputs::time_near(&mut self.random, &times);
        let given = calls::lookup(&profile, t);
        let wanted = wanted_lookup(&profile, t);
        self.tally.compare("lookup", (given.refusal, given, true), wanted, &(t, &profile));
        self.typed_lookup(Profile::try_from(&profile[..]), t, wanted);
    }

    /// Looks times up in records of any kind.
    pub fn lookup_records(&mut self) {
        let records = inputs::records(&mut self.random);
        let times: Vec<i32> = records.iter().map(|point| point.time).collect();
        let t = inputs::time_near(&mut self.random, &times);
        let given = calls::lookup_records(&records, t);
        let numbers: Vec<i32> = records.iter().flat_map(|point| [point.time, point.weight as i32]).collect();
        let wanted = wanted_lookup(&numbers, t);
        self.tally.compare("lookup_records", (given.refusal, given, true), wanted, &(t, &records));
        self.typed_lookup(Profile::try_from(&records[..]), t, wanted);
    }

    /// Better-of two lists of numbers of any kind, at times one list twice.
    pub fn better_of(&mut self) {
        let p = inputs::profile(&mut self.random);
        let other = inputs::profile(&mut self.random);
        let q = if self.random.once_in(20) { &p } else { &other };
        let mut lent = Lent::new(inputs::room(&mut self.random, PROFILE_ROOM), || self.junk());
        let given = calls::better_of(&p, q, lent.lend());
        let judged = unless(reference::is_valid(&p) && reference::is_valid(q), 8)
            .and_then(|()| unless(lent.lend().len() >= PROFILE_ROOM, 10));
        let (wanted, written) = match judged {
            Ok(()) => {
                let better = reference::better_of(&points_of(&p), &points_of(q));
                (answer!(BetterAnswer { points: better.len() }), numbers_of(&better))
            }
            Err(refused) => (answer!(BetterAnswer { refusal: refused.number }), vec![]),
        };
        self.tally.compare("better_of", (given.refusal, given, lent.holds(&written)), wanted, &(&p, q));
        self.typed_better_of(&p, q, wanted, &written);
    }

    /// Extends numbers of any kind by bytes of any kind.
    pub fn extend(&mut self) {
        let profile = inputs::profile(&mut self.random);
        let bytes = inputs::bytes(&mut self.random);
        self.extend_by(&profile, &bytes);
    }

    pub(super) fn extend_by(&mut self, profile: &[i32], bytes: &[u8]) {
        let mut lent = Lent::new(inputs::room(&mut self.random, PROFILE_ROOM), || self.junk());
        let given = calls::extend(profile, bytes, lent.lend(), self.work.lend(&mut self.random));
        let rooms = lent.lend().len() >= PROFILE_ROOM && self.work.is_enough();
        let (wanted, written, after) = match wanted_extension(profile, bytes, rooms) {
            Ok(points) => {
                let late = profile.iter().step_by(2).any(|&time| time > 100_000);
                self.tally.rest.late_profiles += usize::from(late);
                let answer = answer!(ExtendAnswer { points: points.len() });
                (answer, numbers_of(&points), After::Cleared)
            }
            Err(Refused { number, place, field }) => {
                (answer!(ExtendAnswer { refusal: number, place, field }), vec![], After::Untouched)
            }
        };
        self.tally.fields.count("extend", given.field);
        let memory = lent.holds(&written) && self.work.holds(after);
        self.tally.compare("extend", (given.refusal, given, memory), wanted, &(profile, bytes));
        self.typed_extend(profile, bytes, wanted, &written);
    }
}

fn wanted_lookup(profile: &[i32], t: i32) -> LookupAnswer {
    if !reference::is_valid(profile) {
        return answer!(LookupAnswer { refusal: 8 });
    }
    match reference::lookup(&points_of(profile), t) {
        Some(weight) => answer!(LookupAnswer { found: 1, weight: weight as u32 }),
        None => LookupAnswer::default(),
    }
}

/// The extended profile, or the lowest refusal that applies.
fn wanted_extension(profile: &[i32], bytes: &[u8], rooms: bool) -> Result<Vec<Point>, Refused> {
    let judged = reference::judged(bytes);
    match judged {
        Err(refused) if refused.number != 9 => return Err(refused),
        _ => unless(reference::is_valid(profile), 8)?,
    }
    let order = judged?;
    let last = profile.last().copied().unwrap_or(0);
    unless(last + order.jobs.iter().map(|job| job.weight).sum::<i32>() <= 300, 9)?;
    unless(rooms, 10)?;
    Ok(reference::extended(&points_of(profile), &order.jobs))
}
