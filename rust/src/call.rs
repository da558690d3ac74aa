//! How an entry of the library is called: a slice, `in s` or `mut s`, passes as
//! where it stands and its length; anything else as it is.

macro_rules! call {
    (@$entry:ident [$($ready:expr,)*]) => { $entry($($ready),*) };
    (@$entry:ident [$($ready:expr,)*] in $slice:expr, $($rest:tt)*) => {
        call!(@$entry [$($ready,)* $slice.as_ptr(), $slice.len(),] $($rest)*)
    };
    (@$entry:ident [$($ready:expr,)*] mut $slice:expr, $($rest:tt)*) => {
        call!(@$entry [$($ready,)* $slice.as_mut_ptr(), $slice.len(),] $($rest)*)
    };
    (@$entry:ident [$($ready:expr,)*] $value:expr, $($rest:tt)*) => {
        call!(@$entry [$($ready,)* $value,] $($rest)*)
    };
    ($entry:ident($($given:tt)*)) => { call!(@$entry [] $($given)*,) };
}
