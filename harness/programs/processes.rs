//! Programs as processes of their own: whether they are on the machine, and how long they take.

#![allow(dead_code)]

use std::process::{Command, Stdio};
use std::time::{Duration, Instant};

/// Whether the program is on the machine; says so where it is not.
pub fn is_here(words: &[&str]) -> bool {
    let here = command(words).status().is_ok();
    if !here {
        println!("{} is not on this machine", words[0]);
    }
    here
}

fn command(words: &[&str]) -> Command {
    let mut command = Command::new(words[0]);
    command.args(&words[1..]).stdin(Stdio::null()).stdout(Stdio::null()).stderr(Stdio::null());
    command
}

/// From its start to its end; what it writes goes nowhere.
pub fn time(words: &[&str]) -> Duration {
    let clock = Instant::now();
    let status = command(words).status();
    let took = clock.elapsed();
    assert!(status.is_ok_and(|s| s.success()), "{} fails", words[0]);
    took
}

pub fn median(times: &mut [Duration]) -> Duration {
    times.sort_unstable();
    times[times.len() / 2]
}
