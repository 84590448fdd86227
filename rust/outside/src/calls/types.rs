//! The wrapper's types against the reference, on inputs that were made for the calls. Their buffers are
//! always long enough, so an input that a call refused with 10 is passed by.

use super::openings::Pair;
use super::planning::Wanted;
use super::{numbers_of, Trial};
use crate::reference::{self, Refused};
use crate::tally::Held;
use leafanchor::calls::{BetterAnswer, ExtendAnswer, LookupAnswer, PlanAnswer};
use leafanchor::{
    choose, choose_by, question, question_by, Field, Job, Opening, Order, OrderBuf, Plan, Profile, Refusal,
    Repeating, Tie, Winner, LEFT_OUT, ORDER_BYTES,
};
use std::fmt::Debug;
use trials::answer;

impl Trial {
    /// `Order::try_from` and `OrderBuf::try_from` judge as the reference does, and give the same bus-free time and jobs;
    /// the bytes that an order took over it gives back.
    pub(super) fn typed_order(&mut self, bytes: &[u8], judged: &Result<trials::Order, Refused>) {
        let wanted = judged.as_ref().map(wanted_order).map_err(|&refused| refused);
        let given = Order::try_from(bytes).map(contents);
        self.compare_types("Order::try_from", given, wanted.clone(), &bytes);
        let given = OrderBuf::try_from(bytes.to_vec()).map(|order| {
            let contents = contents(order.as_order());
            assert_eq!(order.into_bytes(), bytes);
            contents
        });
        self.compare_types("OrderBuf::try_from", given, wanted, &bytes);
    }

    /// `Order::pack` and `OrderBuf::pack` judge as the reference does, and give an order of these jobs over the packed
    /// bytes.
    pub(super) fn typed_pack(&mut self, t0: i32, numbers: &[i32]) {
        let unpacked: Option<Vec<Job>> = numbers.chunks(7).map(job_of_numbers).collect();
        let jobs = match unpacked {
            Some(jobs) => jobs,
            None => return, // No list of jobs has these numbers.
        };
        let wanted = reference::judged_numbers(t0, numbers)
            .map(|order| (wanted_order(&order), trials::packed(&order)));
        let mut room = [0; ORDER_BYTES];
        let given = Order::pack(t0, &jobs, &mut room).map(|order| (contents(order), order.bytes().to_vec()));
        self.compare_types("Order::pack", given, wanted.clone(), &(t0, numbers));
        let given = OrderBuf::pack(t0, &jobs).map(|order| (contents(order.as_order()), order.into_bytes()));
        self.compare_types("OrderBuf::pack", given, wanted, &(t0, numbers));
    }

    /// `Order::frame` and `OrderBuf::frame` judge as the reference does, and give the order of one frame over its
    /// packed bytes, and the frame.
    pub(super) fn typed_frame(&mut self, numbers: &[i32]) {
        let repeating: Option<Vec<Repeating>> = numbers.chunks(6).map(repeating_of_numbers).collect();
        let repeating = match repeating {
            Some(repeating) => repeating,
            None => return, // No list of repeating jobs has these numbers.
        };
        let wanted = reference::frame(numbers)
            .map(|(order, frame)| (wanted_order(&order), trials::packed(&order), frame));
        let mut room = [0; ORDER_BYTES];
        let given = Order::frame(&repeating, &mut room)
            .map(|(order, frame)| (contents(order), order.bytes().to_vec(), frame));
        self.compare_types("Order::frame", given, wanted.clone(), &numbers);
        let given = OrderBuf::frame(&repeating)
            .map(|(order, frame)| (contents(order.as_order()), order.into_bytes(), frame));
        self.compare_types("OrderBuf::frame", given, wanted, &numbers);
    }

    /// `Order::plan` gives the reference's figures, starts, kept places and text.
    pub(super) fn typed_plan(&mut self, bytes: &[u8], wanted: &Wanted) {
        let work = &mut self.typed_work;
        let given = Order::try_from(bytes).and_then(|order| order.plan(work)).map(figures);
        self.compare_types("Order::plan", given, wanted_figures(wanted), &bytes);
    }

    /// `Order::plan_halves` gives the same of an order of halves, and the seconds lost.
    pub(super) fn typed_plan_halves(&mut self, bytes: &[u8], wanted: &Wanted) {
        let work = &mut self.typed_work;
        let given = Order::try_from(bytes)
            .and_then(|order| order.plan_halves(work))
            .map(|plan| (figures(*plan), plan.seconds_lost(), plan.to_string()));
        let seconds_lost = wanted.seconds_lost;
        let wanted = wanted_figures(wanted).map(|figures| {
            let text = format!("{}; {seconds_lost} optional seconds lost", figures.3);
            (figures, seconds_lost, text)
        });
        self.compare_types("Order::plan_halves", given, wanted, &bytes);
    }

    /// `Order::write_plan` gives the plan's bytes.
    pub(super) fn typed_write_plan(&mut self, bytes: &[u8], refused: Refused, written: &[u8]) {
        let work = &mut self.typed_work;
        let given = Order::try_from(bytes).and_then(|order| order.write_plan(work));
        let given = given.map(|plan| plan.as_bytes().to_vec());
        self.compare_types("Order::write_plan", given, unless_refused(refused, written.to_vec()), &bytes);
    }

    /// `Order::is_legal` and `Order::is_best` give the verdicts.
    pub(super) fn typed_verdicts(
        &mut self,
        bytes: &[u8],
        plan: &[u8],
        is_legal: Result<bool, Refused>,
        is_best: Result<bool, Refused>,
    ) {
        let order = match Order::try_from(bytes) {
            Ok(order) => order,
            Err(_) => return, // The order is judged before a plan comes into it.
        };
        self.compare_types("Order::is_legal", order.is_legal(plan), is_legal, &(bytes, plan));
        let given = order.is_best(plan, &mut self.typed_work);
        self.compare_types("Order::is_best", given, is_best, &(bytes, plan));
    }

    /// `Profile::lookup` over a list that a profile takes.
    pub(super) fn typed_lookup(&mut self, profile: Result<Profile, Refusal>, t: i32, wanted: LookupAnswer) {
        let input = (t, &profile);
        let given = profile.as_ref().map(|profile| profile.lookup(t)).map_err(|&refusal| refusal);
        let found = if wanted.found == 1 { Some(wanted.weight) } else { None };
        self.compare_types(
            "Profile::lookup",
            given,
            unless_refused(Refused::new(wanted.refusal), found),
            &input,
        );
    }

    /// `Profile::better_of` of two lists that profiles take.
    pub(super) fn typed_better_of(&mut self, p: &[i32], q: &[i32], wanted: BetterAnswer, written: &[i32]) {
        let given = Profile::try_from(p)
            .and_then(|p| Profile::try_from(q).map(|q| p.better_of(&q)))
            .map(|better| better.numbers().to_vec());
        let wanted = unless_refused(Refused::new(wanted.refusal), written.to_vec());
        self.compare_types("Profile::better_of", given, wanted, &(p, q));
    }

    /// `Profile::extended`, and for one point at the bus-free time `Order::profile`, of an order and a list
    /// that a profile takes.
    pub(super) fn typed_extend(
        &mut self,
        profile: &[i32],
        bytes: &[u8],
        wanted: ExtendAnswer,
        written: &[i32],
    ) {
        let order = match Order::try_from(bytes) {
            Ok(order) => order,
            Err(_) => return, // The order is judged before a profile comes into it.
        };
        let work = &mut self.typed_work;
        let given = Profile::try_from(profile)
            .and_then(|profile| profile.extended(order, work))
            .map(|extended| extended.numbers().to_vec());
        let ExtendAnswer { refusal: number, place, field, .. } = wanted;
        let wanted = unless_refused(Refused { number, place, field }, written.to_vec());
        self.compare_types("Profile::extended", given, wanted, &(profile, bytes));

        let given = order.profile(&mut self.typed_work).numbers().to_vec();
        let jobs = reference::judged(bytes).map(|order| order.jobs);
        let wanted = jobs.map(|jobs| numbers_of(&reference::extended(&[(order.t0(), 0)], &jobs)));
        self.compare_types("Order::profile", Ok(given), wanted, &bytes);
    }

    /// The question and the choice between two orders, by each tie and by the one that is not named.
    pub(super) fn typed_openings(&mut self, pair: &Pair<'_>) {
        let (first, second) = match (Order::try_from(pair.first), Order::try_from(pair.second)) {
            (Ok(first), Ok(second)) => (first, second),
            _ => return, // The orders are judged before they are openings.
        };
        let t = pair.t;
        for tie in [Tie::Sooner, Tie::First] {
            let asked = question_by(tie, first, second, t, &mut self.typed_work);
            let chosen = choose_by(tie, first, second, t, &mut self.typed_work);
            self.compare_openings(["question_by", "choose_by"], asked, chosen, tie, pair);
        }
        let asked = question(first, second, t, &mut self.typed_work);
        let chosen = choose(first, second, t, &mut self.typed_work);
        self.compare_openings(["question orders", "choose orders"], asked, chosen, Tie::Sooner, pair);
    }

    fn compare_openings(
        &mut self,
        names: [&'static str; 2],
        asked: Result<Opening, Refusal>,
        chosen: Result<Winner<'_>, Refusal>,
        tie: Tie,
        pair: &Pair<'_>,
    ) {
        let won = pair.winner(tie, true).map(|(winner, records)| match winner {
            1 => (Opening::First, pair.first, records.kind as u32),
            _ => (Opening::Second, pair.second, records.kind as u32),
        });
        self.compare_types(names[0], asked, won.map(|(opening, ..)| opening), &(tie, pair));
        let given =
            chosen.map(|winner| (winner.opening, winner.order.bytes(), winner.records, winner.kind.number()));
        let wanted = won.map(|(opening, bytes, kind)| (opening, bytes, &bytes[4..], kind));
        self.compare_types(names[1], given, wanted, &(tie, pair));
    }

    /// Compares what a type gave with what the reference wants, unless that is refusal 10.
    pub(super) fn compare_types<A: PartialEq + Debug>(
        &mut self,
        name: &'static str,
        given: Result<A, Refusal>,
        wanted: Result<A, Refused>,
        input: &dyn Debug,
    ) {
        if matches!(wanted, Err(Refused { number: 10, .. })) {
            return;
        }
        let number = given.as_ref().map_or_else(|refusal| refusal.number(), |_| 0);
        let given =
            given.map_err(|refusal| (number, refusal.place(), refusal.field().map_or(0, Field::figure)));
        let wanted = wanted.map_err(|refused| (refused.number, refused.place_of_job(), refused.field));
        self.tally.compare_held(Held::Type(name), (number, given, true), wanted, input);
    }
}

/// What is wanted where the call was not refused.
fn unless_refused<A>(refused: Refused, wanted: A) -> Result<A, Refused> {
    match refused.number {
        0 => Ok(wanted),
        _ => Err(refused),
    }
}

/// What an order holds, its jobs read in both directions and by place, the kind of its records, and its text.
fn contents(order: Order<'_>) -> (i32, Vec<Job>, u32, String) {
    let jobs: Vec<Job> = order.jobs().collect();
    assert_eq!((order.count(), order.jobs().len()), (jobs.len(), jobs.len()));
    assert!(order.jobs().rev().eq(jobs.iter().rev().copied()));
    assert!((0..jobs.len() + 2).all(|place| order.job(place).as_ref() == jobs.get(place)));
    assert_eq!(order.records().len(), order.kind().record_bytes() * jobs.len());
    (order.t0(), jobs, order.kind().number(), order.to_string())
}

fn wanted_order(order: &trials::Order) -> (i32, Vec<Job>, u32, String) {
    let jobs: Vec<Job> = order.numbers().chunks(7).filter_map(job_of_numbers).collect();
    let lines: Vec<String> = order.jobs.iter().map(line_of_job).collect();
    let text = [vec![format!("bus free at {}", order.t0)], lines].concat().join("\n");
    (order.t0, jobs, order.kind() as u32, text)
}

/// A job's line in the text of its order.
fn line_of_job(job: &trials::Job) -> String {
    let weighs = if job.critical == 1 { "critical".to_string() } else { format!("weight {}", job.weight) };
    let trials::Job { number, pack, ready, length, deadline, .. } = job;
    let named = if *pack == 0 { format!("job {number}") } else { format!("job {number} for pack {pack}") };
    format!("{named}: {weighs}, ready {ready}, length {length}, deadline {deadline}")
}

/// The job of seven numbers, if there is one.
fn job_of_numbers(n: &[i32]) -> Option<Job> {
    let &[number, pack, critical, weight, ready, length, deadline] = <&[i32; 7]>::try_from(n).ok()?;
    let job = match critical {
        0 => Job::optional(number),
        1 => Job::critical(number),
        _ => return None,
    };
    let pack = u8::try_from(pack).ok()?;
    Some(job.pack(pack).weight(weight as u32).ready(ready).length(length).deadline(deadline))
}

/// The repeating job of six numbers, if there is one.
fn repeating_of_numbers(n: &[i32]) -> Option<Repeating> {
    let &[critical, weight, phase, length, deadline, period] = <&[i32; 6]>::try_from(n).ok()?;
    let job = match critical {
        0 => Repeating::optional(),
        1 => Repeating::critical(),
        _ => return None,
    };
    Some(job.weight(weight as u32).phase(phase).length(length).deadline(deadline).period(period))
}

/// A plan as the call answers it, its starts as the call writes them, its kept places and its text.
type Figures = (PlanAnswer, Vec<i32>, Vec<usize>, String);

fn wanted_figures(Wanted { answer, starts, numbers, .. }: &Wanted) -> Result<Figures, Refused> {
    let kept = (0..starts.len()).filter(|&place| starts[place] != LEFT_OUT).collect();
    let PlanAnswer { refusal: number, place, field, .. } = *answer;
    let text = wanted_text(answer, starts, numbers);
    unless_refused(Refused { number, place, field }, (*answer, starts.clone(), kept, text))
}

/// The text of a plan: a line for each job, and one of figures.
fn wanted_text(answer: &PlanAnswer, starts: &[i32], numbers: &[i32]) -> String {
    let line = |(number, &start): (&i32, &i32)| match start {
        LEFT_OUT => format!("job {number}: left out\n"),
        _ => format!("job {number}: start {start}\n"),
    };
    let PlanAnswer { kept, kept_weight, lost_weight, finish, .. } = answer;
    let lines: String = numbers.iter().zip(starts).map(line).collect();
    let jobs = starts.len();
    lines
        + &format!(
            "{kept} of {jobs} jobs kept; weight {kept_weight} kept, {lost_weight} lost; bus free at {finish}"
        )
}

fn figures(plan: Plan) -> Figures {
    let answer = answer!(PlanAnswer {
        mask: plan.mask,
        kept: plan.kept,
        kept_weight: plan.kept_weight,
        lost_weight: plan.lost_weight,
        finish: plan.finish,
        points: plan.points
    });
    let starts: Vec<i32> = plan.starts().map(|start| start.unwrap_or(LEFT_OUT)).collect();
    assert_eq!(plan.kept_places().len(), plan.kept as usize);
    assert!((0..64).all(|place| plan.keeps(place) == (plan.mask << place >> 63 == 1)));
    (answer, starts, plan.kept_places().collect(), plan.to_string())
}
