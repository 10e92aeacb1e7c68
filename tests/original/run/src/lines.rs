//! The line protocol: a request's words to a call of `Run`, and its answer to a line. `main.rs` says how lines read.
use crate::answers::{Answer, Entry, Release};
use crate::run::{Mode, Run, Window};
use satrs::pus::scheduler::{generate_insert_telecommand_app_data_as_vec, PusSchedulerProvider};
use spacepackets::ecss::{PusError, WritablePusPacket};
use spacepackets::time::{TimeWriter, TimestampError, UnixTime};
use std::fmt::Write;
use std::panic::{catch_unwind, AssertUnwindSafe};
use std::time::Duration;

/// Bytes already written, for the original's generator of application data.
struct Raw(Vec<u8>);

impl TimeWriter for Raw {
    fn len_written(&self) -> usize {
        self.0.len()
    }
    fn write_to_bytes(&self, b: &mut [u8]) -> Result<usize, TimestampError> {
        b.copy_from_slice(&self.0);
        Ok(self.0.len())
    }
}

impl WritablePusPacket for Raw {
    fn len_written(&self) -> usize {
        self.0.len()
    }
    fn write_to_bytes(&self, b: &mut [u8]) -> Result<usize, PusError> {
        b.copy_from_slice(&self.0);
        Ok(self.0.len())
    }
    fn to_vec(&self) -> Result<Vec<u8>, PusError> {
        Ok(self.0.clone())
    }
}

/// The original's own service 11 application data: a count, the stamp, the packet.
pub fn app_data(stamp: &[u8], packet: &[u8]) -> Vec<u8> {
    let (stamp, packet) = (Raw(stamp.to_vec()), Raw(packet.to_vec()));
    generate_insert_telecommand_app_data_as_vec(&stamp, &packet)
        .expect("raw bytes are written as they are")
}

pub fn hex(bytes: &[u8]) -> String {
    if bytes.is_empty() {
        return "-".into();
    }
    bytes.iter().fold(String::new(), |mut s, x| {
        write!(s, "{x:02x}").expect("a string");
        s
    })
}

fn unhex(s: &str) -> Vec<u8> {
    if s == "-" {
        return vec![];
    }
    let byte = |i| u8::from_str_radix(&s[i..i + 2], 16).expect("hex");
    (0..s.len()).step_by(2).map(byte).collect()
}

pub fn answer_line(a: &Answer) -> String {
    let signed = |i: usize| a.number == 13 && (i == 0 || i == 4);
    let mut s = a.number.to_string();
    for (i, &v) in a.values.iter().enumerate() {
        match signed(i) {
            true => write!(s, " {}", v as i64).expect("a string"),
            false => write!(s, " {v}").expect("a string"),
        }
    }
    s
}

fn entry_words(entries: &[Entry]) -> String {
    entries.iter().fold(String::new(), |mut s, e| {
        write!(s, " {},{},{},{}", e.time.secs, e.time.nanos, e.id, e.address).expect("a string");
        s
    })
}

pub fn release_line(r: &Release) -> String {
    let mut s = match &r.stopped {
        None => format!("0 {} {}", r.handed, r.left),
        Some(a) => format!("STOP {} : {} {}", answer_line(a), r.handed, r.left),
    };
    for h in &r.records {
        let bytes = hex(&h.bytes);
        write!(s, " | {} {} {} {bytes}", h.enabled as u8, h.id, h.address).expect("a string");
    }
    s
}

#[derive(Default)]
pub struct Lines {
    run: Option<Run>,
}

impl Lines {
    pub fn answer(&mut self, line: &str) -> String {
        let words: Vec<&str> = line.split_whitespace().collect();
        if words[0] == "new" {
            return self.start(&Words(&words));
        }
        let run = self.run.as_mut().expect("a line `new` first");
        match catch_unwind(AssertUnwindSafe(|| call(run, &Words(&words)))) {
            Ok(answer) => answer,
            Err(e) => {
                let text = e.downcast_ref::<String>().map(|s| s.as_str());
                let text = text.or(e.downcast_ref::<&str>().copied());
                format!("PANIC {}", text.unwrap_or_default())
            }
        }
    }

    fn start(&mut self, w: &Words) -> String {
        let pair = |c: &[&str]| (c[0].parse().expect("slots"), c[1].parse().expect("size"));
        let subpools: Vec<(u16, usize)> = w.0[7..].chunks(2).map(pair).collect();
        let margin = Duration::new(w.number(5), w.number(6) as u32);
        let run = Run::new(&subpools, w.0[1] == "1", w.time(3), margin);
        let same = run.subpools == subpools;
        let kept = format!("SANITIZED {:?}", run.subpools);
        self.run = Some(run);
        if same {
            "0".into()
        } else {
            kept
        }
    }
}

struct Words<'a>(&'a [&'a str]);

impl Words<'_> {
    fn number(&self, i: usize) -> u64 {
        self.0[i].parse().expect("a number")
    }
    fn time(&self, i: usize) -> UnixTime {
        UnixTime {
            secs: self.0[i].parse().expect("seconds"),
            nanos: self.0[i + 1].parse().expect("nanoseconds"),
        }
    }
    fn window(&self, i: usize) -> Window {
        match self.0[i] {
            "0" => Window::All,
            "1" => Window::FromTo(self.time(i + 1), self.time(i + 3)),
            "2" => Window::From(self.time(i + 1)),
            _ => Window::To(self.time(i + 3)),
        }
    }
    /// d: closure true; f: closure false; b N: closure true, buffer of N; n N: no deletion, buffer of N;
    /// k N: the same, cut to the packet's length.
    fn mode(&self) -> Mode {
        match self.0[1] {
            "d" => Mode::Delete,
            "f" => Mode::ClosureFalse,
            "b" => Mode::Buffer(self.number(2) as usize),
            "n" => Mode::NoDeletion(self.number(2) as usize),
            _ => Mode::NoDeletionCut(self.number(2) as usize),
        }
    }
}

fn call(run: &mut Run, w: &Words) -> String {
    let answer = match w.0[0] {
        "clock" => {
            run.scheduler.update_time(w.time(1));
            return "0".into();
        }
        "enable" => {
            run.scheduler.enable();
            return "0".into();
        }
        "disable" => {
            run.scheduler.disable();
            return "0".into();
        }
        "num" => return format!("0 {}", run.count()),
        "wrapped" => run.wrapped(&unhex(w.0[1]), false),
        "wrappedl" => run.wrapped(&unhex(w.0[1]), true),
        "unwrapped" => run.unwrapped(w.time(1), &unhex(w.0[3])),
        "unwrappedt" => run.unwrapped_by_trait(w.time(1), &unhex(w.0[3])),
        "stored" => run.stored(w.time(1), w.number(3), w.number(4)),
        "window" => {
            let rows = entry_words(&run.covered(w.window(1)));
            return format!("{} |{rows}", answer_line(&run.window(w.window(1))));
        }
        "vectors" => {
            let (all, empty) = run.vectors(w.window(1));
            return format!("0 {all} {empty}");
        }
        "delwin" => run.delete_window(w.window(1)),
        "delall" => run.delete_all(),
        "reset" => run.reset(),
        "delid" => run.delete_by_id_keep(w.number(1)),
        "delidp" => run.delete_by_id(w.number(1)),
        "release" => return release_line(&run.release(w.mode())),
        "add" => run.add(&unhex(w.0[1])),
        "read" => {
            let mut buffer = vec![0xEE; w.number(2) as usize];
            let answer = run.read(w.number(1), &mut buffer);
            return format!("{} {}", answer_line(&answer), hex(&buffer));
        }
        // without a second word the bytes stay as they are
        "modify" if w.0.len() < 3 => run.modify(w.number(1), |_, b| b),
        "modify" => {
            let by = w.number(2) as u8;
            run.modify(w.number(1), |i, b| b ^ by.wrapping_add(i as u8))
        }
        "delete" => run.delete(w.number(1)),
        "has" => run.has(w.number(1)),
        "len" => run.len(w.number(1)),
        "gen" => return hex(&app_data(&unhex(w.0[1]), &unhex(w.0[2]))),
        "dump" => return dump(run),
        "drain" => {
            let slot = |(a, bytes): &(u64, Vec<u8>)| format!(" {a}:{}", hex(bytes));
            return run.drain().iter().map(slot).collect();
        }
        other => return format!("UNKNOWN {other}"),
    };
    answer_line(&answer)
}

/// Clock, enabled, entries, every taken slot.
fn dump(run: &mut Run) -> String {
    let entries = entry_words(&run.entries());
    let slot = |a: u64| format!(" {a}:{}", hex(&run.packet(a)));
    let taken: String = run.taken().map(slot).collect();
    let clock = run.scheduler.current_time();
    let enabled = run.scheduler.is_enabled() as u8;
    format!("{} {} {enabled} |{entries} |{taken}", clock.secs, clock.nanos)
}
