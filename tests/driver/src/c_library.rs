//! The C library as a subject, by silotwist.h: each slice as a pointer and a count, an empty one as a null pointer.
use plain::Subject;

#[derive(Clone, Copy, Debug, Default)]
pub struct CLibrary;

fn shared<T>(slice: &[T]) -> *const T {
    if slice.is_empty() {
        return std::ptr::null();
    }
    slice.as_ptr()
}

fn lent<T>(slice: &mut [T]) -> *mut T {
    if slice.is_empty() {
        return std::ptr::null_mut();
    }
    slice.as_mut_ptr()
}

/// One call: its declaration in C and the method that makes it. Its parameters are `shared` slices, `lent` ones for
/// writing, and values `given` as they are. Of what C cannot say, all holds: pointers and counts are those of Rust
/// slices, valid, aligned and, where one is mutable, apart; the library keeps nothing.
macro_rules! c_call {
    (@ $name:ident [$($rust:tt)*] [$($c:tt)*] [$($pass:tt)*] shared $a:ident: $t:ty, $($rest:tt)*) => {
        c_call! { @ $name [$($rust)* $a: &[$t],] [$($c)* $a: *const $t, _: usize,]
            [$($pass)* shared($a), $a.len(),] $($rest)* }
    };
    (@ $name:ident [$($rust:tt)*] [$($c:tt)*] [$($pass:tt)*] lent $a:ident: $t:ty, $($rest:tt)*) => {
        c_call! { @ $name [$($rust)* $a: &mut [$t],] [$($c)* $a: *mut $t, _: usize,]
            [$($pass)* lent($a), $a.len(),] $($rest)* }
    };
    (@ $name:ident [$($rust:tt)*] [$($c:tt)*] [$($pass:tt)*] given $a:ident: $t:ty, $($rest:tt)*) => {
        c_call! { @ $name [$($rust)* $a: $t,] [$($c)* $a: $t,] [$($pass)* $a,] $($rest)* }
    };
    (@ $name:ident [$($rust:tt)*] [$($c:tt)*] [$($pass:tt)*]) => {
        fn $name(&self, $($rust)*) -> u32 {
            extern "C" {
                fn $name($($c)*) -> u32;
            }
            unsafe { $name($($pass)*) }
        }
    };
    ($name:ident($($args:tt)*)) => {
        c_call! { @ $name [] [] [] $($args)* }
    };
}

include!("../../../rust/silotwist/src/calls.rs");

impl Subject for CLibrary {
    every_call! { c_call }
}
