//! Planning orders of halves, and that no other call judges by halves.

use super::planning::STYLES_OF_LONG_ORDERS;
use super::Trial;
use crate::inputs;
use crate::reference;
use leafanchor::calls::{self, PlanAnswer};
use trials::packed;

impl Trial {
    /// Plans bytes of halves, in order and damaged. The same bytes go to every other call that takes an order:
    /// they are judged there as any order is, and never refused with 13.
    pub fn halves(&mut self) {
        let bytes = inputs::bytes_of_halves(&mut self.random);
        self.plan_halves_bytes(&bytes);
        self.plan_bytes(&bytes);
        self.unpack_bytes(&bytes);
        self.read_bytes(&bytes);
        let profile = inputs::profile(&mut self.random);
        self.extend_by(&profile, &bytes);
        let other = inputs::bytes_of_halves(&mut self.random);
        self.weigh(&bytes, &other);
        if let Ok(order) = reference::judged(&bytes) {
            self.pack_numbers(order.t0, &order.numbers());
        }
    }

    /// Plans an order of halves in range.
    pub fn plan_order_of_halves(&mut self) {
        let order = inputs::halves(&mut self.random);
        self.plan_halves_bytes(&packed(&order));
    }

    /// Plans bytes of any kind as halves.
    pub fn plan_halves(&mut self) {
        let bytes = inputs::bytes(&mut self.random);
        self.plan_halves_bytes(&bytes);
    }

    /// Plans a long order of halves, and the same where any one place offends.
    pub fn plan_long_halves(&mut self) {
        let n = self.long_count();
        let style = self.random.one_of(&STYLES_OF_LONG_ORDERS);
        let mut order = inputs::halves_with(&mut self.random, style, n);
        self.plan_halves_bytes(&packed(&order));
        let place = self.random.below(n);
        inputs::exchange_mark(&mut self.random, &mut order.jobs[place]);
        self.plan_halves_bytes(&packed(&order));
    }

    fn plan_halves_bytes(&mut self, bytes: &[u8]) {
        let mut lent = self.room_for_starts(bytes);
        let given = calls::plan_halves(bytes, lent.lend(), self.work.lend(&mut self.random));
        let wanted = self.wanted(reference::judged_halves(bytes), lent.lend().len());
        let memory = lent.holds(&wanted.starts) && self.work.holds(wanted.after);
        let figures = (PlanAnswer::from(given), given.seconds_lost);
        let wanted_figures = (wanted.answer, wanted.seconds_lost);
        self.tally.fields.count("plan_halves", given.field);
        self.tally.compare("plan_halves", (given.refusal, figures, memory), wanted_figures, &bytes);
        self.typed_plan_halves(bytes, &wanted);
        self.count_halves(bytes, wanted_figures);
    }

    /// Counts what the answer turned on: the seconds lost, or what is wrong with the first offending job.
    fn count_halves(&mut self, bytes: &[u8], (answer, seconds_lost): (PlanAnswer, u32)) {
        let edges = &mut self.tally.halves;
        match answer.refusal {
            0 if seconds_lost == 0 => edges.lose_nothing += 1,
            0 => edges.lose_seconds += 1,
            13 => {
                let jobs = reference::judged(bytes).map(|order| order.jobs).unwrap_or_default();
                let (job, later) = (&jobs[answer.place], &jobs[answer.place + 1..]);
                let partner_comes =
                    later.iter().any(|other| other.critical == 1 && other.number + 32 == job.number);
                match job.critical {
                    1 => edges.numbers += 1,
                    _ if job.length != 60 * job.weight => edges.lengths += 1,
                    _ if partner_comes => edges.partners_behind += 1,
                    _ => edges.no_partners += 1,
                }
                edges.several += usize::from(reference::offending(&jobs).len() > 1);
                edges.places.insert(answer.place);
            }
            _ => {}
        }
    }
}
