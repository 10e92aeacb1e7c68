//! The numbers that document 01 grants each call; every other number is a fault, and a large run meets them all.

/// 0 and the refusals of a call, by its name.
pub fn granted(name: &str) -> &'static [u32] {
    match name {
        "store_add" => &[0, 1, 2, 3, 11, 12],
        "store_read" => &[0, 1, 2, 3, 16, 17, 18, 19],
        "store_modify" | "store_part" | "store_delete" => &[0, 1, 2, 3, 16, 17, 18],
        "store_has" | "store_len" => &[0, 1, 2, 3, 16, 17],
        "fresh" => &[0, 1, 2, 4],
        "set_clock" => &[0, 2, 3, 4],
        "enable" | "disable" => &[0, 2, 3],
        "count" | "reset" | "delete_by_id_keep" | "delete_by_id" => &[0, 1, 2, 3],
        "insert_wrapped" => &[0, 1, 2, 3, 5, 6, 7, 8, 9, 10, 11, 12, 13, 14],
        "insert_unwrapped" => &[0, 1, 2, 3, 4, 9, 10, 11, 12, 13, 14],
        "insert_stored" => &[0, 1, 2, 3, 4, 13, 14],
        "window" | "delete_window" => &[0, 1, 2, 3, 4, 15],
        "tick" => &[0, 1, 2, 3, 20],
        _ => panic!("no call is named {name}"),
    }
}

/// Every call and number that document 01 grants.
pub fn all() -> impl Iterator<Item = (&'static str, u32)> {
    let names = plain::NAMES.iter().map(|n| n.trim_start_matches("silotwist_"));
    names.flat_map(|name| granted(name).iter().map(move |&number| (name, number)))
}
