//! Why a call refused, with the number, the place and the field that the library gives (R24 to R26).

use crate::field::Field;
use core::fmt;

/// Declares every refusal once, in the words of include/phrases.txt: its number, its name, the place where it is about
/// one job and the field where it is about one of that job's, a phrase for a person, one that tells the place, and one
/// that tells the field alone.
macro_rules! refusals {
    ($(
        $number:literal $name:ident $({ $place:ident $(, $field:ident)? })?
        $phrase:literal $(| $told:literal $(| $named:literal)?)?,
    )*) => {
        /// Why a call refused. Where several reasons apply, the one of the lowest number is given, but for 19,
        /// which comes after 5 and before 6, for 13, 14 and 15, which come after 9 and before 10, and for a frame,
        /// where 16 and 17 come behind 3 and 4 of the repeating jobs, before 3 and 9 of the order made.
        ///
        /// Later versions may add reasons, and figures to the reasons that are about one job.
        ///
        /// ```
        /// use leafanchor::{Order, Refusal};
        ///
        /// match Order::try_from(&[0x17, 0xFD]) {
        ///     Ok(order) => println!("{} jobs", order.count()),
        ///     Err(Refusal::JobOutOfRange { place: Some(place), field, .. }) => {
        ///         println!("mend the {field} at place {place}")
        ///     }
        ///     Err(refusal) => {
        ///         assert_eq!((refusal.number(), refusal.place(), refusal.field()), (1, None, None));
        ///         assert_eq!(refusal.to_string(), "the packed order is under 4 bytes");
        ///     }
        /// }
        /// ```
        #[non_exhaustive]
        #[derive(Clone, Copy, Debug, PartialEq, Eq, PartialOrd, Ord, Hash)]
        pub enum Refusal {
            $(
                #[doc = concat!(stringify!($number), ": ", $phrase, ".")]
                $(#[doc = concat!("`", stringify!($place), "` counts from 0.")] #[non_exhaustive])?
                $name $({
                    /// The first place at which this holds; none where the call has two orders and its answer tells
                    /// no place.
                    $place: Option<usize>,
                    $(
                        /// The first field of that job for which it holds.
                        $field: Field,
                    )?
                })?,
            )*
            /// A number that this version of the crate does not know.
            #[non_exhaustive]
            Other {
                /// The number.
                number: u32,
                /// The place that came with it; 0 may stand for none.
                place: Option<usize>,
            },
        }

        impl Refusal {
            /// The refusal's number.
            #[must_use]
            pub const fn number(self) -> u32 {
                match self {
                    $(Refusal::$name { .. } => $number,)*
                    Refusal::Other { number, .. } => number,
                }
            }

            /// The place of the job that is refused, from 0; none where the refusal is not about one job, or the
            /// answer does not tell which it is.
            #[must_use]
            pub const fn place(self) -> Option<usize> {
                match self {
                    $($(Refusal::$name { $place, .. } => $place,)?)*
                    Refusal::Other { place, .. } => place,
                    _ => None,
                }
            }

            /// The field of that job that is out of range; none where the refusal is not about one.
            #[must_use]
            pub const fn field(self) -> Option<Field> {
                match self {
                    $($($(Refusal::$name { $field, .. } => Some($field),)?)?)*
                    _ => None,
                }
            }

            /// What the library's refusal number, place and field mean; 0 is no refusal.
            pub(crate) const fn check(number: u32, place: Option<usize>, field: u32) -> Result<(), Refusal> {
                match number {
                    0 => Ok(()),
                    $($number => Err(Refusal::$name $({ $place: place $(, $field: Field::of(field))? })?),)*
                    _ => Err(Refusal::Other { number, place }),
                }
            }
        }

        impl fmt::Display for Refusal {
            fn fmt(&self, f: &mut fmt::Formatter<'_>) -> fmt::Result {
                match self {
                    $(
                        $(
                            Refusal::$name { $place: Some($place), $($field,)? .. } $(if $field.has_name())? => {
                                write!(f, $told)
                            }
                            $(Refusal::$name { $field, .. } if $field.has_name() => write!(f, $named),)?
                        )?
                        Refusal::$name { .. } => f.write_str($phrase),
                    )*
                    Refusal::Other { number, .. } => write!(f, "refusal {number}, unknown to this version"),
                }
            }
        }
    };
}

refusals! {
    1 OrderTooShort "the packed order is under 4 bytes",
    2 UnknownKind "the kind of the records is above 1",
    3 TooManyJobs "there are more than 48 jobs, or more than 16 that repeat",
    4 WrongLength "the length does not fit the number of jobs",
    5 BusFreeOutOfRange "the bus-free time is out of range",
    6 JobOutOfRange { place, field }
        "a job's field is out of range" | "job at place {place}: {field} out of range" | "{field} out of range",
    7 NumberRepeated { place }
        "a job's number stood earlier" | "job at place {place}: its number stood earlier",
    8 ProfileNotValid "a given profile is not valid",
    9 TooMuchWeight "the weights sum to more than 300",
    10 BufferTooShort "a buffer is too short",
    11 NoFeasibleChoice "no choice of jobs keeps every critical job in time",
    12 CellTooCold "the cell is below -30 degrees",
    13 NotOfHalves { place }
        "the order is not of halves" | "job at place {place}: it does not fit an order of halves",
    14 PlanWrongLength "the length does not fit the packed plan's mask",
    15 PlanStrayBits "the packed plan has bits set that must be zero",
    16 RepeatingNotValid { place }
        "a repeating job's field is out of range, or its deadline late"
        | "job at place {place}: out of range, or its deadline late",
    17 FrameTooLong "the frame is longer than 86,400 seconds",
    18 NoSheet "there are more than 10,000 orders, or figures that no sheet has",
    19 EveryPackZero "the records are of kind 1 and every pack is 0",
}

#[cfg(feature = "std")]
impl std::error::Error for Refusal {}

#[cfg(test)]
mod tests {
    use super::{Field, Refusal};

    fn refused(number: u32) -> Refusal {
        Refusal::check(number, Some(3), 6).unwrap_err()
    }

    #[test]
    fn every_number_is_told_back() {
        assert_eq!(Refusal::check(0, Some(0), 0), Ok(()));
        for number in (1..=40).chain([u32::MAX]) {
            assert_eq!(refused(number).number(), number);
        }
        assert_eq!(refused(9), Refusal::TooMuchWeight);
        assert_eq!(refused(u32::MAX), Refusal::Other { number: u32::MAX, place: Some(3) });
    }

    #[test]
    fn refusals_6_7_13_and_16_have_a_place_and_6_alone_a_field() {
        for number in 1..=19 {
            let place = if [6, 7, 13, 16].contains(&number) { Some(3) } else { None };
            let field = if number == 6 { Some(Field::Length) } else { None };
            assert_eq!((refused(number).place(), refused(number).field()), (place, field));
            assert_eq!(Refusal::check(number, None, 6).unwrap_err().place(), None);
        }
    }
}

/// Holds the words for refusals and fields to the one list of them.
#[cfg(all(test, feature = "alloc"))]
mod phrases {
    use super::{Field, Refusal};
    use alloc::string::ToString;
    use alloc::vec::Vec;

    const LIST: &str = include_str!("../../../include/phrases.txt");

    /// The lines that are no comments, each as a number and what stands behind it: those with a word before the
    /// number, or those without.
    fn lines(word: &str) -> Vec<(u32, &'static str)> {
        let line = |line: &'static str| {
            let (number, words) = line.strip_prefix(word)?.split_once(' ')?;
            Some((number.parse().ok()?, words))
        };
        LIST.lines().filter_map(line).collect()
    }

    #[test]
    fn every_line_of_the_list_is_a_refusal_or_a_field() {
        let comments = LIST.lines().filter(|line| line.starts_with('#')).count();
        assert_eq!(lines("").len() + lines("field ").len() + comments, LIST.lines().count());
        let known = |&number: &u32| !matches!(Refusal::check(number, None, 0), Err(Refusal::Other { .. }));
        assert!(lines("").iter().map(|line| line.0).eq((1..100).filter(known)));
        let known = |&figure: &u32| !matches!(Field::of(figure), Field::Other { .. });
        assert!(lines("field ").iter().map(|line| line.0).eq((1..100).filter(known)));
    }

    #[test]
    fn every_refusal_says_the_words_of_the_list() {
        for (number, words) in lines("") {
            let forms: Vec<_> = words.split(" | ").collect();
            let says = |place, field, form| {
                let words = *forms.get(form).unwrap_or(&forms[0]);
                let words = words.replace("{place}", "40").replace("{field}", "ready time");
                assert_eq!(Refusal::check(number, place, field).unwrap_err().to_string(), words);
            };
            says(Some(40), 5, 1);
            says(None, 5, 2);
            // Of a field that has no name nothing is told, and nor is its place.
            says(Some(40), 99, if number == 6 { 0 } else { 1 });
            says(None, 99, 0);
        }
        let beyond = Refusal::check(99, Some(0), 0).unwrap_err();
        assert_eq!(beyond.to_string(), "refusal 99, unknown to this version");
    }

    #[test]
    fn every_field_says_the_words_of_the_list() {
        for (figure, words) in lines("field ") {
            assert_eq!(Field::of(figure).to_string(), words);
        }
        assert_eq!(Field::of(99).to_string(), "field 99");
    }
}
