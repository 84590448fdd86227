//! The question and the choice between two openings, by each rule for equal weight.

use super::{unless, Trial};
use crate::inputs;
use crate::lent::After;
use crate::reference::{self, Point, Refused};
use leafanchor::calls::{self, ChooseAnswer, QuestionAnswer};
use leafanchor::Tie;
use std::fmt::Debug;
use trials::{answer, packed, Order};

/// A call on two openings, and its name.
type Call<A> = (&'static str, fn(&[u8], &[u8], i32, &mut [i32]) -> A);

/// A rule for equal weight, and its calls.
struct Rule {
    tie: Tie,
    question: Call<QuestionAnswer>,
    choose: Call<ChooseAnswer>,
}

const RULES: [Rule; 2] = [
    Rule { tie: Tie::Sooner, question: ("question", calls::question), choose: ("choose", calls::choose) },
    Rule {
        tie: Tie::First,
        question: ("question_first", calls::question_first),
        choose: ("choose_first", calls::choose_first),
    },
];

/// An opening that is not refused: its profile and its records.
struct Opened {
    profile: Vec<Point>,
    records: Records,
}

/// How many records an opening has, and of which kind.
#[derive(Clone, Copy, Debug)]
pub(super) struct Records {
    jobs: usize,
    pub kind: usize,
}

/// Two openings and a time; and the point of each at that time, with its records, or the refusal of the first, then of
/// the second.
#[derive(Debug)]
pub(super) struct Pair<'a> {
    pub first: &'a [u8],
    pub second: &'a [u8],
    pub t: i32,
    found: Result<[(Option<Point>, Records); 2], Refused>,
}

/// The winner and its records, or a refusal.
pub(super) type Won = Result<(u32, Records), Refused>;

impl Pair<'_> {
    /// The winner by a tie, with a work area that is long enough or not.
    pub fn winner(&self, tie: Tie, rooms: bool) -> Won {
        let [first, second] = self.found?;
        unless(rooms, 10)?;
        let winner = reference::winner(tie, first.0, second.0).ok_or(Refused::new(11))?;
        Ok((winner, if winner == 1 { first.1 } else { second.1 }))
    }
}

impl Trial {
    /// Weighs bytes of any kind, at times two damaged orders or the same bytes twice.
    pub fn openings(&mut self) {
        let draw = if self.random.once_in(5) { inputs::bytes_of_damaged } else { inputs::bytes };
        let (first, other) = (draw(&mut self.random), draw(&mut self.random));
        let second = if self.random.once_in(20) { &first } else { &other };
        self.weigh(&first, second);
    }

    /// Weighs an order and a rival of it, which are often worth the same.
    pub fn rival_openings(&mut self) {
        let order = inputs::order(&mut self.random);
        let rival = inputs::rival(&mut self.random, &order);
        self.weigh(&packed(&order), &packed(&rival));
    }

    /// Asks and chooses between these by each rule, at a time near one that matters.
    pub(super) fn weigh(&mut self, first: &[u8], second: &[u8]) {
        let both = [opened(first), opened(second)];
        self.count_both(&both);
        let points = both.iter().flatten().flat_map(|opened| &opened.profile);
        let times: Vec<i32> = points.map(|point| point.0).collect();
        let t = inputs::time_near(&mut self.random, &times);
        let at = |opened: Opened| (reference::point_at(&opened.profile, t), opened.records);
        let found = match both {
            [Ok(one), Ok(two)] => Ok([at(one), at(two)]),
            [Err(refused), _] | [_, Err(refused)] => Err(refused),
        };
        let pair = Pair { first, second, t, found };
        self.count_tie(&pair);
        for Rule { tie, question, choose } in &RULES {
            self.weigh_by(*tie, *question, &pair, asked);
            self.weigh_by(*tie, *choose, &pair, chosen);
        }
        self.typed_openings(&pair);
    }

    /// Makes one call, whose answer says who won.
    fn weigh_by<A: PartialEq + Debug>(
        &mut self,
        tie: Tie,
        (name, call): Call<A>,
        pair: &Pair<'_>,
        answer: fn(Won) -> A,
    ) {
        let given = call(pair.first, pair.second, pair.t, self.work.lend(&mut self.random));
        let won = pair.winner(tie, self.work.is_enough());
        let (refusal, field) = won.map_or_else(|refused| (refused.number, refused.field), |_| (0, 0));
        let memory = self.work.holds(after(refusal));
        self.tally.fields.count(name, field);
        self.tally.compare(name, (refusal, given, memory), answer(won), pair);
    }

    /// Counts two openings that are both refused with 6, for other fields.
    fn count_both(&mut self, both: &[Result<Opened, Refused>; 2]) {
        if let [Err(one), Err(two)] = both {
            let both = one.number == 6 && two.number == 6 && one.field != two.field;
            self.tally.fields.both_openings += usize::from(both);
        }
    }

    /// Counts two openings by their kinds, and those that are worth the same by which of them was so sooner.
    fn count_tie(&mut self, pair: &Pair<'_>) {
        if let Ok([first, second]) = pair.found {
            self.tally.kinds.openings[first.1.kind][second.1.kind] += 1;
            self.tally.ties.count(reference::tied(first.0, second.0));
        }
    }
}

fn opened(bytes: &[u8]) -> Result<Opened, Refused> {
    let Order { t0, jobs } = reference::judged(bytes)?;
    let records = Records { jobs: jobs.len(), kind: reference::header(bytes)?.kind };
    Ok(Opened { profile: reference::extended(&[(t0, 0)], &jobs), records })
}

fn asked(won: Won) -> QuestionAnswer {
    match won {
        Ok((winner, Records { kind, .. })) => answer!(QuestionAnswer { winner, kind: kind as u32 }),
        Err(Refused { number, field, .. }) => answer!(QuestionAnswer { refusal: number, field }),
    }
}

fn chosen(won: Won) -> ChooseAnswer {
    match won {
        Ok((winner, Records { jobs, kind })) => {
            answer!(ChooseAnswer { winner, offset: 4, length: (8 + kind) * jobs, kind: kind as u32 })
        }
        Err(Refused { number, field, .. }) => answer!(ChooseAnswer { refusal: number, field }),
    }
}

fn after(refusal: u32) -> After {
    match refusal {
        0 | 11 => After::Cleared,
        _ => After::Untouched,
    }
}
