//! An enum together with the list of all its kinds.

macro_rules! kinds {
    ($(#[$about:meta])* pub enum $name:ident in $all:ident { $($kind:ident,)* }) => {
        $(#[$about])*
        #[derive(Clone, Copy, Debug, PartialEq, Eq)]
        pub enum $name { $($kind),* }

        pub const $all: [$name; [$($name::$kind),*].len()] = [$($name::$kind),*];
    };
}
