//! What nobody meant: damaged tables, short buffers, packets with one fault and the check code right.
use crate::packets::seal;
use crate::prng::Prng;
use crate::world::World;
use plain::{row_secs, ROW_WORDS};

/// A word at some edge.
pub fn word(r: &mut Prng) -> u64 {
    let edges = [0, 1, 5, 8, 9, 255, 256, 257, 4096, 4097, 65_535, 999_999_999, 1_000_000_000];
    match r.below(4) {
        0 => r.word(),
        1 => 1 << r.below(64),
        2 => (1u64 << 42).wrapping_add(r.word() % 3).wrapping_sub(1),
        _ => r.pick(&edges),
    }
}

fn shorten<T>(r: &mut Prng, v: &mut Vec<T>) {
    match r.below(4) {
        0 => v.clear(),
        1 => v.truncate(v.len() / 2),
        _ => {
            let _last = v.pop();
        }
    }
}

/// A word of some table becomes another.
fn replace(r: &mut Prng, v: &mut [u64]) {
    if !v.is_empty() {
        v[r.below(v.len())] = word(r);
    }
}

/// A time just out of range, in a row or in the record.
fn out_of_range(r: &mut Prng, w: &mut World) {
    let end = 1i64 << 42;
    let secs = r.pick(&[end, end + 1, -end, -end - 1, i64::MIN, i64::MAX]);
    let rows = w.rows.len() / ROW_WORDS;
    match r.below(6) {
        0 if w.record.len() > 5 => w.record[1] = secs as u64,
        1 if w.record.len() > 5 => w.record[2] = 1_000_000_000,
        2 if w.record.len() > 5 => w.record[3] = (1 << 31) + 1,
        3 if w.record.len() > 5 => w.record[4] = 1_000_000_000 + r.word() % 2,
        4 if rows > 0 => w.rows[r.below(rows.min(3)) * ROW_WORDS] = row_secs(secs),
        _ if rows > 0 => w.rows[r.below(rows.min(3)) * ROW_WORDS + 1] = 1_000_000_000,
        _ => (),
    }
}

/// Two neighbouring rows change places.
fn swap_rows(r: &mut Prng, w: &mut World) {
    let count = w.record.first().map_or(0, |&n| n.min(300) as usize);
    if count >= 2 && w.rows.len() >= count * ROW_WORDS {
        let at = r.below(count - 1) * ROW_WORDS;
        w.rows[at..at + 2 * ROW_WORDS].rotate_left(ROW_WORDS);
    }
}

/// A length around its slot's size.
fn replace_length(r: &mut Prng, w: &mut World) {
    if w.lens.is_empty() {
        return;
    }
    let at = r.below(w.lens.len());
    let size = w.setup.get(4).map_or(0, |&n| n as u16);
    w.lens[at] = r.pick(&[size, size.wrapping_add(1), 65_534, 65_535, 4097, 0]);
}

pub fn damage(r: &mut Prng, w: &mut World) {
    match r.below(18) {
        0 => shorten(r, &mut w.setup),
        1 => w.setup.push(word(r)),
        2 | 3 => shorten(r, &mut w.record),
        4 => shorten(r, &mut w.store),
        5 => shorten(r, &mut w.lens),
        6 | 7 => shorten(r, &mut w.rows),
        8 => replace(r, &mut w.setup),
        9 => replace(r, &mut w.record),
        10 => replace(r, &mut w.rows),
        11 | 12 => replace_length(r, w),
        13 => swap_rows(r, w),
        14..=16 => out_of_range(r, w),
        _ => shorten(r, &mut w.answer),
    }
}

/// One fault in a readable packet that ends with its total; the check code is right, but where it is the fault.
pub fn spoil(r: &mut Prng, p: &mut Vec<u8>) {
    let field = u16::from_be_bytes([p[4], p[5]]);
    match r.below(9) {
        0 => p[0] ^= 1 << r.pick(&[5, 6, 7]),
        1 => p[0] ^= 1 << 4,
        2 => p[0] ^= 1 << 3,
        3 => p[6] ^= 1 << r.pick(&[4, 5, 6, 7]),
        4 => p[4..6].copy_from_slice(&field.saturating_add(1).to_be_bytes()),
        5 => p[4..6].copy_from_slice(&5u16.to_be_bytes()),
        6 => p[4..6].copy_from_slice(&r.pick(&[0u16, 4, 0xFFFF]).to_be_bytes()),
        7 => {
            seal(p);
            let at = r.below(p.len());
            p[at] ^= 1 << r.below(8);
            return;
        }
        _ => {
            let short = r.below(p.len());
            p.truncate(short);
            return;
        }
    }
    let total = u16::from_be_bytes([p[4], p[5]]) as usize + 7;
    let end = if (2..=p.len()).contains(&total) { total } else { p.len() };
    seal(&mut p[..end]);
}
