//! Stand-in for the macro that `pool.rs` uses in its guards, which are left out.
#[macro_export]
macro_rules! delegate {
    ($($t:tt)*) => {};
}
