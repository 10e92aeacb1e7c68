//! The 21 calls of silotwist.h over slices: the only file with `unsafe`.
#![allow(unsafe_code)]
use crate::Refusal;

/// The words of an answer.
pub(crate) type Words = [u64; 8];

/// Makes a call: its answer's words, or its refusal.
pub(crate) fn ask(call: impl FnOnce(&mut [u64]) -> u32) -> Result<Words, Refusal> {
    let mut words = Words::default();
    match call(&mut words) {
        0 => Ok(words),
        number => Err(Refusal::of(number.into(), &words)),
    }
}

/// One call: its declaration in C, and a safe function over it. Its parameters are `shared` slices, `lent` ones for
/// writing, and values `given` as they are. What silotwist.h asks of a caller holds: pointers and counts are those of
/// Rust slices, so they are valid and aligned, what is lent for writing overlaps nothing, and nobody else is at work on
/// it; the library keeps no pointer.
macro_rules! call {
    (@ $name:ident [$($rust:tt)*] [$($c:tt)*] [$($pass:tt)*] shared $a:ident: $t:ty, $($rest:tt)*) => {
        call! { @ $name [$($rust)* $a: &[$t],] [$($c)* $a: *const $t, _: usize,]
            [$($pass)* $a.as_ptr(), $a.len(),] $($rest)* }
    };
    (@ $name:ident [$($rust:tt)*] [$($c:tt)*] [$($pass:tt)*] lent $a:ident: $t:ty, $($rest:tt)*) => {
        call! { @ $name [$($rust)* $a: &mut [$t],] [$($c)* $a: *mut $t, _: usize,]
            [$($pass)* $a.as_mut_ptr(), $a.len(),] $($rest)* }
    };
    (@ $name:ident [$($rust:tt)*] [$($c:tt)*] [$($pass:tt)*] given $a:ident: $t:ty, $($rest:tt)*) => {
        call! { @ $name [$($rust)* $a: $t,] [$($c)* $a: $t,] [$($pass)* $a,] $($rest)* }
    };
    (@ $name:ident [$($rust:tt)*] [$($c:tt)*] [$($pass:tt)*]) => {
        #[allow(clippy::too_many_arguments)]
        pub(crate) fn $name($($rust)*) -> u32 {
            extern "C" {
                fn $name($($c)*) -> u32;
            }
            unsafe { $name($($pass)*) }
        }
    };
    ($name:ident($($args:tt)*)) => {
        call! { @ $name [] [] [] $($args)* }
    };
}

include!("calls.rs");

every_call! { call }
