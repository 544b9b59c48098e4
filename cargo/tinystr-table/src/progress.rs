//! Progress on standard error.

use std::io::{self, Write};
use std::iter;
use std::sync::mpsc::{RecvTimeoutError, channel};
use std::thread::{self, Builder};
use std::time::Duration;

/// Does some work, and says that it still runs after 1, 2, 4, 8, .. seconds.
pub fn shown<T>(what: &str, work: impl FnOnce() -> T) -> T {
    let (end, is_ended) = channel::<()>();
    thread::scope(move |scope| {
        let shows = move || {
            for (more, seconds) in waits() {
                if is_ended.recv_timeout(Duration::from_secs(more)) != Err(RecvTimeoutError::Timeout) {
                    break;
                }
                let _ = writeln!(io::stderr(), "{what}: {seconds} s");
            }
        };
        // without a thread for it, there is no progress to see
        let _ = Builder::new().spawn_scoped(scope, shows);
        // dropped when the work ends, by a panic too
        let _end = end;
        work()
    })
}

/// How many seconds more to wait, and how many these are in all.
fn waits() -> impl Iterator<Item = (u64, u64)> {
    iter::successors(Some((1, 1)), |(_, seconds)| Some((*seconds, 2 * seconds)))
}

#[cfg(test)]
#[test]
fn each_wait_ends_at_twice_the_time() {
    assert!(waits().take(5).eq([(1, 1), (1, 2), (2, 4), (4, 8), (8, 16)]));
}
