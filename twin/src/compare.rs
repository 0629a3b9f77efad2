//! Compares two script programs on random scripts: the scripts, the processes that answer them, and
//! what is said about their answers.

/// An enum whose variants are also listed, so that one can be drawn and none is left out.
macro_rules! kinds {
    ($(#[$about:meta])* $name:ident: $($kind:ident),+ $(,)?) => {
        $(#[$about])*
        #[derive(Clone, Copy, Debug, PartialEq, Eq, PartialOrd, Ord)]
        pub enum $name { $($kind),+ }

        pub const ALL: &[$name] = &[$($name::$kind),+];
    };
}

pub mod line;

pub mod calls;
pub mod malformed;
pub mod unusual;

pub mod pieces;
pub mod scripts;

pub mod process;

pub mod counts;
pub mod difference;
