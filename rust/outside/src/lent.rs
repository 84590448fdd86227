//! Memory lent to a call: a part of a longer buffer whose every number is known before and checked after the
//! call.

use leafanchor::WORK_AREA;
use trials::Random;

/// Elements before and behind the lent part that no call may touch.
const GUARD: usize = 8;

/// A lent buffer.
pub struct Lent<T> {
    now: Vec<T>,
    before: Vec<T>,
    lent: usize,
}

impl<T: Copy + PartialEq> Lent<T> {
    /// A buffer that lends `lent` elements; `value` gives what each holds before the call.
    pub fn new(lent: usize, value: impl FnMut() -> T) -> Self {
        let drawn: Vec<T> = std::iter::repeat_with(value).take(lent + GUARD).collect();
        let before = [&drawn[lent..], &drawn].concat();
        Lent { now: before.clone(), before, lent }
    }

    /// A buffer that lends these elements to a call that only reads them; `value` gives what stands around them.
    pub fn given(elements: &[T], mut value: impl FnMut() -> T) -> Self {
        let mut elements = elements.iter();
        Lent::new(elements.len(), || elements.next().copied().unwrap_or_else(&mut value))
    }

    /// The lent part.
    pub fn lend(&mut self) -> &mut [T] {
        &mut self.now[GUARD..GUARD + self.lent]
    }

    /// Whether `written` stands at the front of the lent part and everything around it is as it was, guards included.
    pub fn holds(&self, written: &[T]) -> bool {
        let end = GUARD + written.len();
        self.now[GUARD..end] == *written
            && self.now[..GUARD] == self.before[..GUARD]
            && self.now[end..] == self.before[end..]
    }
}

/// What the work area must hold after a call.
#[derive(Clone, Copy, Debug, PartialEq, Eq)]
pub enum After {
    /// The call passed refusal 10: the first 14,749 numbers are 0, what is past them is as it was.
    Cleared,
    /// It did not: all is as it was.
    Untouched,
}

/// The work area, full of numbers other than 0 before each call.
pub struct Work {
    now: Vec<i32>,
    before: Vec<i32>,
    lent: usize,
    /// Whether the area was found to be as it was after the last call.
    untouched: bool,
}

impl Work {
    /// A work area of a length that is enough, one short, longer, or far too short.
    pub fn new(random: &mut Random) -> Self {
        let strange = |random: &mut Random| random.one_of(&[i32::MIN, i32::MAX, -1, 1, 200_000, -100_000, 7]);
        let before: Vec<i32> = (0..WORK_AREA + 3 * GUARD).map(|_| strange(random)).collect();
        Work { now: before.clone(), before, lent: WORK_AREA, untouched: true }
    }

    /// The next lent part, all of it other than 0.
    pub fn lend(&mut self, random: &mut Random) -> &mut [i32] {
        if !self.untouched {
            self.now.copy_from_slice(&self.before);
        }
        self.untouched = false; // until it is found to be
        self.lent = match random.below(24) {
            0 => WORK_AREA - 1,
            1 => random.below(WORK_AREA),
            2..=7 => WORK_AREA + 1 + random.below(2 * GUARD),
            _ => WORK_AREA,
        };
        &mut self.now[..self.lent]
    }

    /// Whether the last lent part has the room that planning asks for.
    pub fn is_enough(&self) -> bool {
        self.lent >= WORK_AREA
    }

    /// Whether the area is as it must be after the last call.
    pub fn holds(&mut self, after: After) -> bool {
        // All bits that are not as they must be: without an end before the last number this takes many at a time.
        let front = self.now[..WORK_AREA].iter();
        let wrong = match after {
            After::Cleared => front.fold(0, |wrong, number| wrong | number),
            After::Untouched => {
                front.zip(&self.before).fold(0, |wrong, (now, before)| wrong | (now ^ before))
            }
        };
        let holds = wrong == 0 && self.now[WORK_AREA..] == self.before[WORK_AREA..];
        self.untouched = holds && after == After::Untouched;
        holds
    }
}
