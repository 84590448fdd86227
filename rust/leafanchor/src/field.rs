//! Which field of a job is out of range (R36).

use core::fmt;

/// Declares every field once, in the words of include/phrases.txt: its figure, its name and a word for a person.
macro_rules! fields {
    ($($figure:literal $name:ident $word:literal,)*) => {
        /// A field of a job that is out of range. Of several the first is told, in the order of a packed record,
        /// which is that of these names. A critical job that weighs has its weight out of range.
        ///
        /// Packed bytes hold a number, a pack and a critical mark within their ranges: packing alone can refuse those.
        ///
        /// ```
        /// use leafanchor::{Field, Job, Order, ORDER_BYTES};
        ///
        /// let good = Job::critical(1).ready(0).length(10).deadline(10);
        /// let jobs = [good, Job::critical(2).ready(0).length(10_001).deadline(100_001)];
        /// let refusal = Order::pack(0, &jobs, &mut [0; ORDER_BYTES]).unwrap_err();
        /// assert_eq!(refusal.field(), Some(Field::Length));
        /// assert_eq!(refusal.to_string(), "job at place 1: length out of range");
        /// ```
        #[non_exhaustive]
        #[derive(Clone, Copy, Debug, PartialEq, Eq, PartialOrd, Ord, Hash)]
        pub enum Field {
            $(
                #[doc = concat!(stringify!($figure), ": the ", $word, ".")]
                $name,
            )*
            /// A figure that this version of the crate does not know.
            #[non_exhaustive]
            Other {
                /// The figure.
                figure: u32,
            },
        }

        impl Field {
            /// The field's figure, 1 for the number to 7 for the deadline.
            #[must_use]
            pub const fn figure(self) -> u32 {
                match self {
                    $(Field::$name => $figure,)*
                    Field::Other { figure } => figure,
                }
            }

            /// The field of a figure.
            pub(crate) const fn of(figure: u32) -> Self {
                match figure {
                    $($figure => Field::$name,)*
                    _ => Field::Other { figure },
                }
            }

            /// Whether this version of the crate has a name for it.
            pub(crate) const fn has_name(self) -> bool {
                !matches!(self, Field::Other { .. })
            }
        }

        impl fmt::Display for Field {
            fn fmt(&self, f: &mut fmt::Formatter<'_>) -> fmt::Result {
                match self {
                    $(Field::$name => f.write_str($word),)*
                    Field::Other { figure } => write!(f, "field {figure}"),
                }
            }
        }
    };
}

fields! {
    1 Number "number",
    2 Pack "pack",
    3 Critical "critical mark",
    4 Weight "weight",
    5 Ready "ready time",
    6 Length "length",
    7 Deadline "deadline",
}

#[cfg(test)]
mod tests {
    use super::Field;

    #[test]
    fn every_figure_is_told_back() {
        for figure in (0..=20).chain([u32::MAX]) {
            assert_eq!(Field::of(figure).figure(), figure);
        }
        assert_eq!((Field::of(7), Field::of(8)), (Field::Deadline, Field::Other { figure: 8 }));
    }
}
