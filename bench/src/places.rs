//! The same call at 256 places of the stack, 16 bytes apart within a page: a time that depends on where the stack
//! lies shows itself.
use std::hint::black_box;
use std::time::Instant;

const PLACES: usize = 256;
/// Calls at a place in a round; the least counts.
const CALLS: usize = 3;

/// `f` further down the stack, by one frame a level.
#[inline(never)]
fn deeper<const PAD: usize>(levels: usize, f: &mut dyn FnMut(usize)) {
    let pad = black_box([0u8; PAD]);
    match levels {
        0 => f(pad.as_ptr() as usize),
        _ => deeper::<PAD>(levels - 1, f),
    }
    black_box(&pad);
}

/// How many bytes a level takes.
fn frame<const PAD: usize>() -> usize {
    let mut at = [0; 2];
    for levels in 0..2 {
        deeper::<PAD>(levels, &mut |place| at[levels] = place);
    }
    at[0] - at[1]
}

/// `f` at every place: 256 levels of an odd number of 16 bytes each come by all of them.
fn everywhere(mut f: impl FnMut(usize)) {
    for levels in 0..PLACES {
        match frame::<16>() / 16 % 2 {
            1 => deeper::<16>(levels, &mut |_| f(levels)),
            _ => deeper::<32>(levels, &mut |_| f(levels)),
        }
    }
}

/// One round over all places: for each, the least time so far of `make`, less `overhead`.
pub fn round<S, A>(
    s: &mut S, overhead: f64, least: &mut [f64; PLACES], make: impl Fn(&mut S) -> A,
    undo: impl Fn(&mut S),
) {
    assert!(frame::<16>() / 16 % 2 == 1 || frame::<32>() / 16 % 2 == 1);
    everywhere(|place| {
        for _ in 0..CALLS {
            let start = Instant::now();
            black_box(make(black_box(s)));
            let time = start.elapsed().as_nanos() as f64;
            undo(s);
            least[place] = least[place].min(time - overhead);
        }
    });
}

/// Least and most over the places.
pub fn ends(least: &[f64; PLACES]) -> [f64; 2] {
    [least.iter().copied().fold(f64::INFINITY, f64::min), least.iter().copied().fold(0.0, f64::max)]
}

pub fn none() -> [f64; PLACES] {
    [f64::INFINITY; PLACES]
}
