//! The buffers that both versions of a call are lent, and the comparison of what each answers and leaves in them.

use leafanchor::{MOST_JOBS, ORDER_BYTES, ORDER_NUMBERS, PLAN_BYTES, PROFILE_ROOM, WORK_AREA};
use std::fmt::Debug;

/// One buffer for each use.
#[derive(PartialEq)]
pub struct Room {
    pub starts: Vec<i32>,
    pub work: Vec<i32>,
    pub numbers: Vec<i32>,
    pub profile: Vec<i32>,
    pub order: Vec<u8>,
    pub plan: Vec<u8>,
}

impl Room {
    /// Buffers that are long enough for every call, less so many elements; none holds a 0.
    pub fn new(short_of: usize) -> Self {
        let numbers = |room: usize| vec![7; room - short_of];
        let bytes = |room: usize| vec![7; room - short_of];
        Room {
            starts: numbers(MOST_JOBS),
            work: numbers(WORK_AREA),
            numbers: numbers(ORDER_NUMBERS),
            profile: numbers(PROFILE_ROOM),
            order: bytes(ORDER_BYTES),
            plan: bytes(PLAN_BYTES),
        }
    }
}

/// One version of a call on an input.
pub type Call<I, A> = fn(&I, &mut Room) -> A;

/// The library's version of a call and the plain one, on the same input and buffers.
macro_rules! both {
    (|$input:pat_param, $room:pat_param| $call:ident($($given:expr),*)) => {
        [
            |$input, $room| leafanchor::calls::$call($($given),*),
            |$input, $room| crate::plain::$call($($given),*),
        ]
    };
}
pub(crate) use both;

/// How many inputs are also tried with buffers that are too short.
const SHORT_OF_ROOM: usize = 50;

/// Compares what the library's version and the plain one answer and leave in all buffers, on every input; gives the
/// answers.
pub fn compare<I: Debug, A: Debug + PartialEq>(calls: [Call<I, A>; 2], inputs: &[I]) -> Vec<A> {
    inputs.iter().take(SHORT_OF_ROOM).for_each(|input| drop(compare_one(calls, input, 1)));
    inputs.iter().map(|input| compare_one(calls, input, 0)).collect()
}

/// The same on one input, with buffers short of so many elements.
fn compare_one<I: Debug, A: Debug + PartialEq>(calls: [Call<I, A>; 2], input: &I, short_of: usize) -> A {
    let [(ours, our_room), (plain, plain_room)] = calls.map(|call| {
        let mut room = Room::new(short_of);
        (call(input, &mut room), room)
    });
    assert_eq!(ours, plain, "the answers differ on {input:?}");
    assert!(our_room == plain_room, "the buffers differ on {input:?}");
    ours
}
