//! The contactor's rest of 15 seconds after every job, on both sides of its edges.

use leafanchor::{Job, OrderBuf, Plan, Profile, Refusal, WorkArea, REST};

/// The plan of jobs.
fn planned(t0: i32, jobs: &[Job]) -> Result<Plan, Refusal> {
    OrderBuf::pack(t0, jobs)?.as_order().plan(&mut WorkArea::new())
}

/// The starts of jobs, and when the bus is free after the plan.
fn starts(t0: i32, jobs: &[Job]) -> (Vec<Option<i32>>, i32) {
    let plan = planned(t0, jobs).unwrap();
    (plan.starts().collect(), plan.finish)
}

/// The points of the profile of jobs, as alternating numbers.
fn points(t0: i32, jobs: &[Job]) -> Vec<i32> {
    OrderBuf::pack(t0, jobs).unwrap().as_order().profile(&mut WorkArea::new()).numbers().to_vec()
}

#[test]
fn the_next_job_starts_when_the_contactor_has_rested() {
    // The first ends at 10 and the second starts at 25; it ends at its deadline of 35, its own rest past it.
    let first = Job::critical(1).ready(0).length(10).deadline(10);
    let second = Job::optional(2).weight(5).ready(0).length(10);
    assert_eq!(starts(0, &[first, second.deadline(35)]), (vec![Some(0), Some(25)], 50));
    assert_eq!(points(0, &[first, second.deadline(35)]), [25, 0, 50, 5]);
    assert_eq!(starts(0, &[first, second.deadline(34)]), (vec![Some(0), None], 25));
    assert_eq!(points(0, &[first, second.deadline(34)]), [25, 0]);

    let second = Job::critical(2).length(10);
    assert_eq!(starts(0, &[first, second.ready(25).deadline(35)]), (vec![Some(0), Some(25)], 50));
    let late = [first, second.ready(24).deadline(34)];
    assert_eq!(planned(0, &late), Err(Refusal::NoFeasibleChoice));
    assert!(points(0, &late).is_empty());
}

#[test]
fn there_is_no_rest_before_the_first_job_nor_where_none_is_kept() {
    let job = Job::optional(1).weight(5).ready(0).length(10).deadline(10);
    assert_eq!((starts(0, &[job]), points(0, &[job])), ((vec![Some(0)], 25), vec![0, 0, 25, 5]));
    assert_eq!((starts(1, &[job]), points(1, &[job])), ((vec![None], 1), vec![1, 0]));
    // A job left out between two others adds nothing to the rest between them.
    let late = Job::optional(2).weight(5).ready(0).length(10).deadline(9);
    let third = Job::optional(3).weight(5).ready(0).length(1).deadline(26);
    assert_eq!(starts(0, &[job, late, third]), (vec![Some(0), None, Some(25)], 41));
}

#[test]
fn the_bus_may_be_free_up_to_100_015() {
    let last = Job::critical(1).ready(90_000).length(10_000).deadline(100_000);
    assert_eq!(starts(90_000, &[last]), (vec![Some(90_000)], 100_015));
    assert_eq!(100_000 + REST, 100_015);
    assert_eq!(points(90_000, &[last]), [100_015, 0]);
    assert!(points(90_001, &[last]).is_empty());

    // That time is no t0, but a profile has it and is extended from it.
    assert_eq!(OrderBuf::pack(100_015, &[]), Err(Refusal::BusFreeOutOfRange));
    let profile = Profile::try_from(&[100_015, 0]).unwrap();
    let job = Job::optional(2).weight(5).ready(0).length(1).deadline(100_000);
    let order = OrderBuf::pack(0, &[job]).unwrap();
    assert_eq!(profile.extended(order.as_order(), &mut WorkArea::new()).as_ref(), Ok(&profile));
    assert_eq!((profile.lookup(100_014), profile.lookup(100_015)), (None, Some(0)));
    assert_eq!(profile.better_of(&Profile::default()), profile);
    assert_eq!(Profile::try_from(&[100_016, 0]), Err(Refusal::ProfileNotValid));
}
