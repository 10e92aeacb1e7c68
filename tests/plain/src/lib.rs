//! A plain reading of document 01: every call of silotwist.h over slices, by models that are built from the lent
//! tables, worked on and put back. Simple before fast. One rule can be broken, to judge what compares with it.
mod calls;
mod check_code;
mod frame;
mod judge;
mod log;
mod packet;
mod refusal;
mod rule;
mod schedule;
mod setup;
mod stamp;
mod state;
mod store;
mod subject;
mod tick;
mod time;

pub use check_code::check_code;
pub use packet::{Packet, SHORTEST};
pub use refusal::Refusal;
pub use rule::{Reading, Rule};
pub use stamp::read_stamp;
pub use store::{decode, encode, INVALID_ADDR};
pub use subject::{
    row_secs, Subject, ANSWER_WORDS, FREE, NAMES, RECORD_WORDS, ROW_WORDS, SETUP_HEAD,
};
pub use time::{Margin, Time};

/// The plain subject. `reading` is document 01, or document 01 with one rule broken.
#[derive(Clone, Copy, Debug, Default)]
pub struct Plain {
    pub reading: Reading,
}

impl Plain {
    pub fn broken(rule: Rule) -> Plain {
        Plain { reading: Reading { broken: Some(rule) } }
    }
}
