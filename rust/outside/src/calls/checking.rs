//! Writing our own plan in packed bytes, and the verdicts on plans of any kind.

use super::planning::{starts_of, Wanted, STYLES_OF_LONG_ORDERS};
use super::{unless, Trial};
use crate::inputs;
use crate::lent::{After, Lent};
use crate::plans::{self, Kind};
use crate::reference::{self, Keep, Kept, Refused};
use leafanchor::calls::{self, PackAnswer, PlanAnswer, VerdictAnswer};
use leafanchor::{LEFT_OUT, PLAN_BYTES};
use trials::{answer, dense_order, packed, packed_plan, Order};

/// Plans that are judged for each order, beside our own.
const PLANS_OF_AN_ORDER: usize = 9;

/// An order that plans are judged for: its bytes, how they are judged, and its own plan with the weight that it keeps.
struct Asked {
    bytes: Vec<u8>,
    judged: Result<Order, Refused>,
    ours: Option<(Kept, i32)>,
}

impl Asked {
    fn new(bytes: Vec<u8>) -> Self {
        let judged = reference::judged(&bytes);
        let ours = judged.as_ref().ok().and_then(own_plan);
        Asked { bytes, judged, ours }
    }

    /// The order and the plan in these bytes, or a refusal 1 to 7, 9, 14, 15 or 19.
    fn judge(&self, plan: &[u8]) -> Result<(&Order, Kept), Refused> {
        let order = self.judged.as_ref().map_err(|&refused| refused)?;
        reference::sent(plan, order.jobs.len()).map(|kept| (order, kept))
    }

    fn is_best(&self, order: &Order, kept: &Kept) -> bool {
        let most = self.ours.as_ref().map(|&(_, weight)| weight);
        reference::is_legal(order, kept) && Some(reference::weight_of(order, kept)) >= most
    }
}

/// The plan of an order, and the weight that it keeps.
fn own_plan(order: &Order) -> Option<(Kept, i32)> {
    let best = reference::best_forward(order, Keep::Needed)?;
    Some((kept_of(&starts_of(order, best)), best.weight))
}

/// The jobs kept, of starts in place order.
fn kept_of(starts: &[i32]) -> Kept {
    starts.iter().copied().enumerate().filter(|&(_, start)| start != LEFT_OUT).collect()
}

impl Trial {
    /// Writes our plan of an order in range, and judges it and other plans for that order.
    pub fn check_plans(&mut self) {
        let order = inputs::order(&mut self.random);
        self.check_plans_of(packed(&order));
    }

    /// The same for a long order, which at times keeps 48 jobs.
    pub fn check_plans_of_long_order(&mut self) {
        let n = self.long_count();
        let style = self.random.one_of(&STYLES_OF_LONG_ORDERS);
        let order = match self.random.below(12) {
            0 => dense_order(&mut self.random),
            _ => inputs::order_with(&mut self.random, style, n),
        };
        self.check_plans_of(packed(&order));
    }

    /// Writes the plan of bytes of any kind, and judges a plan for another order by them.
    pub fn check_any_bytes(&mut self) {
        let bytes = inputs::bytes(&mut self.random);
        let order = inputs::order(&mut self.random);
        self.write_plan(&bytes);
        let (kind, plan) = plans::plan(&mut self.random, &order, None);
        self.check_plan(&Asked::new(bytes), kind, &plan);
    }

    /// For an order whose plan keeps 48 jobs, every front of it, and every length from 0 to 120 bytes with every
    /// number of ones in the mask.
    pub fn check_lengths(&mut self) {
        let asked = Asked::new(packed(&dense_order(&mut self.random)));
        let (ours, _) = asked.ours.as_ref().expect("every job of a dense order fits");
        for ones in 0..=48 {
            self.check_plan(&asked, Kind::Dropped, &packed_plan(&ours[..ones]));
            for length in 0..=120 {
                self.check_plan(&asked, Kind::OfLength, &plans::of_length(ones, length));
            }
        }
    }

    fn check_plans_of(&mut self, bytes: Vec<u8>) {
        let asked = Asked::new(bytes);
        if let Some(plan) = self.write_plan(&asked.bytes) {
            self.check_plan(&asked, Kind::Ours, &plan);
        }
        if let Ok(order) = &asked.judged {
            for _ in 0..PLANS_OF_AN_ORDER {
                let ours = asked.ours.as_ref().map(|(kept, _)| kept);
                let (kind, plan) = plans::plan(&mut self.random, order, ours);
                self.check_plan(&asked, kind, &plan);
            }
        }
    }

    /// Writes our plan of these bytes; gives what the library wrote.
    fn write_plan(&mut self, bytes: &[u8]) -> Option<Vec<u8>> {
        let mut lent = Lent::new(inputs::room(&mut self.random, PLAN_BYTES), || self.junk() as u8);
        let given = calls::write_plan(bytes, lent.lend(), self.work.lend(&mut self.random));
        let roomy = lent.lend().len() >= PLAN_BYTES;
        let judged = reference::judged(bytes).and_then(|order| unless(roomy, 10).map(|()| order));
        let Wanted { answer: PlanAnswer { refusal, place, field, .. }, starts, after, .. } =
            self.wanted(judged, usize::MAX);
        let written = if refusal == 0 { packed_plan(&kept_of(&starts)) } else { vec![] };
        let memory = lent.holds(&written) && self.work.holds(after);
        let answer = answer!(PackAnswer { refusal, place, field, bytes: written.len() });
        self.tally.fields.count("write_plan", given.field);
        self.tally.compare("write_plan", (given.refusal, given, memory), answer, &bytes);
        self.typed_write_plan(bytes, Refused { number: refusal, place, field }, &written);
        lent.lend().get(..given.bytes).filter(|_| given.refusal == 0).map(<[u8]>::to_vec)
    }

    /// Both verdicts on a plan.
    fn check_plan(&mut self, asked: &Asked, kind: Kind, plan: &[u8]) {
        let (bytes, judged) = (&asked.bytes[..], asked.judge(plan));
        let is_legal = judged.as_ref().map(|(order, kept)| reference::is_legal(order, kept));
        let is_legal = is_legal.map_err(|&refused| refused);
        let given = calls::legal(bytes, plan);
        self.tally.fields.count("legal", given.field);
        self.tally.compare("legal", (given.refusal, given, true), verdict(is_legal), &(bytes, plan));

        let given = calls::best(bytes, plan, self.work.lend(&mut self.random));
        let is_best = judged.as_ref().map(|(order, kept)| asked.is_best(order, kept));
        let is_best = is_best.map_err(|&refused| refused);
        let roomy = is_best.and_then(|yes| unless(self.work.is_enough(), 10).map(|()| yes));
        let memory = self.work.holds(if roomy.is_ok() { After::Cleared } else { After::Untouched });
        self.tally.fields.count("best", given.field);
        self.tally.compare("best", (given.refusal, given, memory), verdict(roomy), &(bytes, plan));

        self.typed_verdicts(bytes, plan, is_legal, is_best);
        let jobs = asked.judged.as_ref().map_or(0, |order| order.jobs.len());
        self.tally.verdicts.count(kind, plan, jobs, &judged, is_best == Ok(true));
    }
}

/// The answer of a verdict.
fn verdict(judged: Result<bool, Refused>) -> VerdictAnswer {
    match judged {
        Ok(yes) => answer!(VerdictAnswer { yes: u32::from(yes) }),
        Err(Refused { number, place, field }) => answer!(VerdictAnswer { refusal: number, place, field }),
    }
}
