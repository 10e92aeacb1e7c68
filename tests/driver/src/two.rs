//! Two subjects on the same input: the number, all answer words, every lent slice and what lies behind.
use crate::call::{Call, Instant};
use crate::crafted;
use crate::faults::damage;
use crate::granted::granted;
use crate::prng::Prng;
use crate::random_calls::Draw;
use crate::world::World;
use plain::Subject;
use std::collections::BTreeMap;

#[derive(Clone, Debug, Default)]
pub struct Counts {
    pub worlds: u64,
    pub calls: u64,
    pub answers: BTreeMap<(&'static str, u32), u64>,
}

/// The call to both, on copies of the world. Gives what the first one answered and left.
fn both(
    first: &dyn Subject, second: &dyn Subject, world: &World, call: &Call,
) -> Result<(u32, World), String> {
    let (mut a, mut b) = (world.clone(), world.clone());
    let (number, other) = (call.on(first, &mut a), call.on(second, &mut b));
    let parts = [
        ("numbers", number == other && granted(call.name()).contains(&number)),
        ("answers", a.answer == b.answer),
        ("records", a.record == b.record),
        ("stores", a.store == b.store),
        ("lengths", a.lens == b.lens),
        ("rows", a.rows == b.rows),
        ("buffers", a.buffer == b.buffer),
    ];
    match parts.iter().find(|(_, same)| !same) {
        None => Ok((number, a)),
        Some((part, _)) => Err(format!(
            "{part} differ: {number} {:?} against {other} {:?}\n{call:?}\n{}",
            a.answer,
            b.answer,
            shown(world)
        )),
    }
}

/// A world, as far as it is small enough to read.
fn shown(w: &World) -> String {
    let words = |v: &[u64]| format!("{:?} of {}", &v[..v.len().min(40)], v.len());
    let lens = &w.lens[..w.lens.len().min(40)];
    format!(
        "setup {}\nrecord {}\nrows {}\nlens {lens:?} of {}\nstore of {}\nanswer of {}",
        words(&w.setup),
        words(&w.record),
        words(&w.rows),
        w.lens.len(),
        w.store.len(),
        w.answer.len()
    )
}

/// One random world and some calls on it, one after the other; now and then a call on a damaged copy.
pub fn random_world(
    first: &dyn Subject, second: &dyn Subject, r: &mut Prng, counts: &mut Counts,
) -> Result<(), String> {
    let (mut world, times): (World, Vec<Instant>) = crafted::world(r);
    let large = world.store.len() > 100_000;
    counts.worlds += 1;
    for _ in 0..if large { 2 } else { 8 } {
        let call = Draw { r, world: &world, times: &times }.call();
        let damaged = r.one_in(4);
        let mut input = world.clone();
        if damaged {
            for _ in 0..r.pick(&[1, 2, 2, 3]) {
                damage(r, &mut input);
            }
        }
        let (number, left) = both(first, second, &input, &call)?;
        counts.calls += 1;
        *counts.answers.entry((call.name(), number)).or_default() += 1;
        if !damaged {
            world = left;
        }
    }
    Ok(())
}
