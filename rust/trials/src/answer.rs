//! An answer of the library, written down figure by figure.

/// An answer with these figures and 0 in every other. Its type may gain figures, so that no crate but its own can write
/// it out whole.
#[macro_export]
macro_rules! answer {
    ($answer:ident { $($figure:ident $(: $value:expr)?),* $(,)? }) => {{
        let mut answer = $answer::default();
        $(answer.$figure = $crate::answer!(@ $figure $(, $value)?);)*
        answer
    }};
    (@ $figure:ident) => {
        $figure
    };
    (@ $figure:ident, $value:expr) => {
        $value
    };
}
