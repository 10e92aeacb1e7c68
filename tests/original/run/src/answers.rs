//! The original's answers and refusals in document 01's numbers and values (a signed second as its two's complement).
use satrs::pool::{PoolError, StoreIdError};
use satrs::pus::scheduler::{ScheduleError, TcInfo};
use spacepackets::time::UnixTime;
use spacepackets::ByteConversionError;

/// 0 and the values of an answer, or a refusal's number and its values.
#[derive(Clone, Debug, PartialEq, Eq)]
pub struct Answer {
    pub number: u32,
    pub values: Vec<u64>,
}

pub fn answer(number: u32, values: &[u64]) -> Answer {
    Answer { number, values: values.to_vec() }
}

/// One entry of the schedule, as the original shows it.
#[derive(Clone, Debug, PartialEq, Eq)]
pub struct Entry {
    pub time: UnixTime,
    pub id: u64,
    pub address: u64,
}

/// What the closure was given.
#[derive(Clone, Debug, PartialEq, Eq)]
pub struct Handed {
    pub enabled: bool,
    pub id: u64,
    pub address: u64,
    pub bytes: Vec<u8>,
}

/// A release: how many were handed out and how many due entries remain; `stopped` holds the store's refusal.
#[derive(Clone, Debug, PartialEq, Eq)]
pub struct Release {
    pub stopped: Option<Answer>,
    pub handed: u64,
    pub left: u64,
    pub records: Vec<Handed>,
}

pub fn pool_refusal(e: &PoolError) -> Answer {
    match e {
        PoolError::DataTooLarge(n) => answer(11, &[*n as u64]),
        PoolError::StoreFull(k) => answer(12, &[*k as u64]),
        PoolError::InvalidStoreId(StoreIdError::InvalidSubpool(k), _) => answer(16, &[*k as u64]),
        PoolError::InvalidStoreId(StoreIdError::InvalidPacketIdx(s), _) => answer(17, &[*s as u64]),
        PoolError::DataDoesNotExist(a) => answer(18, &[*a]),
        PoolError::ByteConversionError(ByteConversionError::ToSliceTooSmall {
            found,
            expected,
        }) => answer(19, &[*found as u64, *expected as u64]),
        e => panic!("the original gave {e:?}"),
    }
}

pub fn schedule_refusal(e: &ScheduleError) -> Answer {
    match e {
        ScheduleError::WrongService(n) => answer(5, &[*n as u64]),
        ScheduleError::WrongSubservice(n) => answer(6, &[*n as u64]),
        ScheduleError::TcDataEmpty => answer(7, &[]),
        ScheduleError::TimestampError(_) => answer(8, &[]),
        ScheduleError::PusError(_) => answer(9, &[]),
        ScheduleError::NestedScheduledTc => answer(10, &[]),
        ScheduleError::StoreError(e) => pool_refusal(e),
        ScheduleError::ReleaseTimeInTimeMargin {
            current_time: c,
            time_margin: m,
            release_time: r,
        } => {
            let margin = [m.as_secs(), m.subsec_nanos() as u64];
            let time = |t: &UnixTime| [t.secs as u64, t.nanos as u64];
            answer(13, &[time(c), margin, time(r)].concat())
        }
        e => panic!("the original gave {e:?}"),
    }
}

pub fn of_pool<T>(result: Result<T, PoolError>, values: impl Fn(T) -> Vec<u64>) -> Answer {
    match result {
        Ok(x) => answer(0, &values(x)),
        Err(e) => pool_refusal(&e),
    }
}

pub fn inserted(result: Result<TcInfo, ScheduleError>) -> Answer {
    match result {
        Ok(i) => answer(0, &[i.addr(), i.request_id().as_u64()]),
        Err(e) => schedule_refusal(&e),
    }
}

pub fn entry(time: UnixTime, info: &TcInfo) -> Entry {
    Entry { time, id: info.request_id().as_u64(), address: info.addr() }
}

pub fn last_refusal(deleted: u64, missing: u64, last: Option<PoolError>) -> Answer {
    let mut values = vec![deleted, missing];
    match last {
        None => values.push(0),
        Some(e) => {
            let refusal = pool_refusal(&e);
            values.push(refusal.number as u64);
            values.extend(refusal.values);
        }
    }
    answer(0, &values)
}
