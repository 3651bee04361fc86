//! One-fault variants of the calls on probes, runs, verdicts, comparisons, scripts, keypads, walks
//! and the bound, and of the texts. With the fault `None` each of them answers as the plain model
//! does.

pub mod bounds;
mod codes;
pub mod comparisons;
pub mod keypads;
pub mod probes;
pub mod runs;
pub mod scripts;
pub mod suites;
pub mod text;
pub mod verdicts;
pub mod walks;

/// The faults of a call, in the order in which they are planted; `None` is not among them.
macro_rules! faults {
    ($(#[$what:meta])* $name:ident { $($(#[$doc:meta])* $fault:ident,)* }) => {
        $(#[$what])*
        #[derive(Clone, Copy, PartialEq, Eq, Debug)]
        pub enum $name {
            /// No fault.
            None,
            $($(#[$doc])* $fault,)*
        }

        impl $name {
            /// Every planted fault.
            pub const ALL: &'static [$name] = &[$($name::$fault,)*];
        }
    };
}
use faults;
