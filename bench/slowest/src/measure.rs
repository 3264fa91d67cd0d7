//! Measuring the time of a call.

use crate::clock::time;
use crate::inputs::Input;
use crate::subject::{Room, Subject};
use std::fmt;
use std::sync::mpsc;
use std::thread;
use std::time::Duration;

const TURNS: u32 = 3;
/// A call that takes less is made several times in a turn, since the clock takes time too.
const LEAST_TURN: u64 = 1_000_000;
/// A call may take so long for each mebibyte of its input.
const LIMIT: Duration = Duration::from_secs(10);

/// What a call on an input costs.
pub struct Cost {
    call: &'static str,
    input: String,
    bytes: usize,
    nanoseconds: f64,
    result: u32,
}

impl Cost {
    /// The head of a table of costs.
    pub const HEAD: &str =
        "| call | the slowest kind | ms | ns a byte | result |\n|---|---|---|---|---|";

    /// Measures a call. Ends the program if it takes too long.
    pub fn of(subject: &Subject, input: &Input) -> Cost {
        let mut room = Room::of(input);
        let mut cost = Cost {
            call: subject.name,
            bytes: input.bytes(),
            input: input.name.clone(),
            nanoseconds: f64::INFINITY,
            result: 0,
        };
        let mut turn = |times: u64| {
            time(|| (0..times).for_each(|_| cost.result = (subject.call)(input, &mut room)))
        };
        let first = within_limit(input, subject.name, || turn(1));
        let times = (LEAST_TURN / first.max(1)).clamp(1, 1000);
        let turns: Vec<_> = (0..TURNS).map(|_| turn(times)).collect();
        let least = turns.into_iter().min().expect("there is a turn");
        cost.nanoseconds = least as f64 / times as f64;
        cost
    }

    /// Whether it is more than another.
    pub fn is_more_than(&self, other: &Cost) -> bool {
        self.nanoseconds > other.nanoseconds
    }
}

impl fmt::Display for Cost {
    fn fmt(&self, out: &mut fmt::Formatter<'_>) -> fmt::Result {
        let Cost {
            call,
            input,
            bytes,
            nanoseconds,
            result,
        } = self;
        let milliseconds = nanoseconds / 1e6;
        let a_byte = nanoseconds / *bytes as f64;
        let digits = if milliseconds < 0.1 { 5 } else { 2 };
        let result = result_name(*result);
        write!(
            out,
            "| `{call}` | {input} | {milliseconds:.digits$} | {a_byte:.2} | {result} |"
        )
    }
}

/// Does the work on a thread of its own, which is not waited for beyond the limit.
fn within_limit<T: Send>(input: &Input, call: &str, work: impl FnOnce() -> T + Send) -> T {
    let limit = LIMIT * input.bytes().div_ceil(1 << 20).max(1) as u32;
    thread::scope(|scope| {
        let (sender, receiver) = mpsc::channel();
        scope.spawn(move || sender.send(work()));
        receiver.recv_timeout(limit).unwrap_or_else(|_| {
            eprintln!(
                "slowest: {call} took over {limit:?} on {} bytes: {}",
                input.bytes(),
                input.name
            );
            std::process::exit(1)
        })
    })
}

/// The name of an error of `xet.h`, or 0.
fn result_name(result: u32) -> String {
    let name = match result {
        1 => "Io",
        2 => "InternalError",
        4 => "TruncatedHashCollision",
        5 => "ShardVersion",
        11 => "InvalidShard",
        13 => "InvalidArguments",
        18 => "OutOfMemory",
        19 => "Short",
        20 => "Disagree",
        number => return number.to_string(),
    };
    name.to_owned()
}
