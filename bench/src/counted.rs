//! The calls made once each between two marks, at which a counter of instructions (callgrind) writes its total:
//! every second total is a call's. `bench/run` reads them in the order of these calls.
use crate::original::Original;
use crate::plan::{CALLS, SIZES};
use crate::this::This;
use std::hint::black_box;

#[no_mangle]
#[inline(never)]
pub extern "C" fn counted_mark() {
    black_box(());
}

fn between<S, A>(s: &mut S, make: impl Fn(&mut S) -> A) {
    let s = black_box(s);
    counted_mark();
    let answer = make(s);
    counted_mark();
    black_box(answer);
}

/// Every call at every size: the library's, the original's, and judging on the library's tables. Each was made once
/// before.
pub fn count() {
    for (call, _) in CALLS {
        for n in SIZES {
            let (mut this, mut original) = (This::new(call, n), Original::new(call, n));
            this.make();
            this.undo();
            original.make();
            original.undo();
            between(&mut this, This::make);
            this.undo();
            between(&mut original, Original::make);
            between(&mut this, This::count);
        }
    }
}
