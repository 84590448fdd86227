//! Planning.

use super::{jobs_by_length, unless, Trial};
use crate::inputs;
use crate::lent::{After, Lent};
use crate::reference::{self, Best, Keep, Refused, MOST_JOBS_OF_ALL_CHOICES, REST};
use leafanchor::calls::{self, PlanAnswer};
use leafanchor::LEFT_OUT;
use trials::{answer, packed, Order, Style};

/// Styles in which long orders have many plans.
pub(super) const STYLES_OF_LONG_ORDERS: [Style; 4] =
    [Style::Tight, Style::Gaps, Style::Morning, Style::Morning];

/// What a call that plans must give: its figures, the starts that it writes, with the numbers of their jobs, the
/// optional seconds that the plan loses, and what becomes of the work area.
pub(super) struct Wanted {
    pub answer: PlanAnswer,
    pub starts: Vec<i32>,
    pub numbers: Vec<i32>,
    pub seconds_lost: u32,
    pub after: After,
}

impl Trial {
    /// Plans bytes of any kind.
    pub fn plan(&mut self) {
        let bytes = inputs::bytes(&mut self.random);
        self.plan_bytes(&bytes);
    }

    /// Plans an order in range.
    pub fn plan_order(&mut self) {
        let order = inputs::order(&mut self.random);
        self.plan_bytes(&packed(&order));
    }

    /// Plans a long order in range, half of the time one of 48 jobs.
    pub fn plan_long_order(&mut self) {
        let n = self.long_count();
        let style = self.random.one_of(&STYLES_OF_LONG_ORDERS);
        let order = inputs::order_with(&mut self.random, style, n);
        self.plan_bytes(&packed(&order));
    }

    /// How many jobs a long order has.
    pub(super) fn long_count(&mut self) -> usize {
        if self.random.once_in(2) {
            48
        } else {
            12 + self.random.below(36)
        }
    }

    pub(super) fn plan_bytes(&mut self, bytes: &[u8]) {
        let mut lent = self.room_for_starts(bytes);
        let given = calls::plan(bytes, lent.lend(), self.work.lend(&mut self.random));
        let wanted = self.wanted(reference::judged(bytes), lent.lend().len());
        let memory = lent.holds(&wanted.starts) && self.work.holds(wanted.after);
        self.tally.fields.count("plan", given.field);
        self.tally.compare("plan", (given.refusal, given, memory), wanted.answer, &bytes);
        self.typed_plan(bytes, &wanted);
    }

    /// Room for the starts of an order, for too few or for more.
    pub(super) fn room_for_starts(&mut self, bytes: &[u8]) -> Lent<i32> {
        Lent::new(inputs::room(&mut self.random, jobs_by_length(bytes)), || self.junk())
    }

    /// What planning must give, by how its order is judged, with this much room for starts and in the work area as
    /// it was last lent.
    pub(super) fn wanted(&mut self, judged: Result<Order, Refused>, room: usize) -> Wanted {
        let planned = judged
            .and_then(|order| unless(room >= order.jobs.len() && self.work.is_enough(), 10).map(|()| order))
            .and_then(|order| self.best(&order).map(|best| (best, order)).ok_or(Refused::new(11)));
        match planned {
            Ok((best, order)) => {
                self.count_rest_edges(&order, best);
                let answer = wanted_plan(&order, best);
                self.tally.most_points = self.tally.most_points.max(answer.points);
                Wanted {
                    answer,
                    starts: starts_of(&order, best),
                    numbers: order.jobs.iter().map(|job| job.number).collect(),
                    seconds_lost: reference::seconds_lost(&order, best),
                    after: After::Cleared,
                }
            }
            Err(Refused { number, place, field }) => Wanted {
                answer: answer!(PlanAnswer { refusal: number, place, field }),
                starts: vec![],
                numbers: vec![],
                seconds_lost: 0,
                after: if number == 11 { After::Cleared } else { After::Untouched },
            },
        }
    }

    /// The plan's choice, over all choices where there are few enough, and what was met on the way.
    fn best(&mut self, order: &Order) -> Option<Best> {
        let best = reference::best_forward(order, Keep::Needed);
        if order.jobs.len() <= MOST_JOBS_OF_ALL_CHOICES {
            let over_all = reference::best_by_all_choices(order);
            assert_eq!(best, over_all.map(|(best, _)| best), "the two references differ on {order:?}");
            self.tally.tried += 1;
            self.tally.tied += usize::from(over_all.map_or(false, |(_, rivals)| rivals > 1));
        }
        self.tally.slips += usize::from(reference::best_forward(order, Keep::Earliest) != best);
        let longest = usize::from(order.jobs.len() == 48);
        self.tally.longest += longest;
        if best.is_some() {
            self.tally.feasible += 1;
            self.tally.longest_feasible += longest;
        } else {
            self.tally.infeasible += 1;
        }
        best
    }

    /// Counts where the plan comes to an edge of the contactor's rest.
    fn count_rest_edges(&mut self, order: &Order, best: Best) {
        let edges = &mut self.tally.rest;
        let mut bus_free = None; // until a job is kept
        for (place, (job, start)) in order.jobs.iter().zip(starts_of(order, best)).enumerate() {
            let after_rest = bus_free.filter(|&bus_free| bus_free >= job.ready);
            let past_deadline = after_rest.map(|start| start + job.length - job.deadline);
            if keeps(best, place) {
                edges.met += usize::from(past_deadline == Some(0));
                bus_free = Some(start + job.length + REST);
            } else {
                edges.missed += usize::from(past_deadline == Some(1));
            }
        }
        edges.late_plans += usize::from(best.bus_free > 100_000);
    }
}

fn keeps(best: Best, place: usize) -> bool {
    best.choice >> place & 1 == 1
}

/// The plan's figures, each from its sentence in R8 and R9.
fn wanted_plan(order: &Order, best: Best) -> PlanAnswer {
    let left_out = order.jobs.iter().enumerate().filter(|&(place, _)| !keeps(best, place));
    answer!(PlanAnswer {
        mask: (0..64).filter(|&place| keeps(best, place)).map(|place| 1 << (63 - place)).sum(),
        kept: (0..order.jobs.len()).filter(|&place| keeps(best, place)).count() as u32,
        kept_weight: best.weight as u32,
        lost_weight: left_out.map(|(_, job)| job.weight as u32).sum(),
        finish: best.bus_free,
        points: reference::point_total(order) as u32
    })
}

/// The starts in place order.
pub(super) fn starts_of(order: &Order, best: Best) -> Vec<i32> {
    let mut bus_free = order.t0;
    let mut start = |place: usize| {
        if !keeps(best, place) {
            return LEFT_OUT;
        }
        let start = bus_free.max(order.jobs[place].ready);
        bus_free = start + order.jobs[place].length + REST;
        start
    };
    (0..order.jobs.len()).map(&mut start).collect()
}
