//! Work that takes its own time: processor time, so that what else the machine does in the meantime does not count.

use std::ffi::{c_int, c_long};
use std::hint::black_box;

/// Does its work so many times; the seconds that one takes.
pub type Timed<'a> = Box<dyn FnMut(u64) -> f64 + 'a>;

/// A call in this thread, by the mean of its repeats.
pub fn calls<'a, A>(mut call: impl FnMut() -> A + 'a) -> Timed<'a> {
    Box::new(move |repeats| {
        let start = thread_seconds();
        for _ in 0..repeats {
            black_box(call());
        }
        (thread_seconds() - start) / repeats as f64
    })
}

/// A call in this thread, each after a preparation whose time does not count; by the best of its repeats.
pub fn prepared<'a, A>(prepare: impl Fn() + 'a, call: impl FnMut() -> A + 'a) -> Timed<'a> {
    one_by_one(thread_seconds, prepare, call)
}

/// The run of another program to its end, in the same way: the time of that program alone.
pub fn runs<'a>(prepare: impl Fn() + 'a, run: impl FnMut() + 'a) -> Timed<'a> {
    one_by_one(children_seconds, prepare, run)
}

fn one_by_one<'a, A>(
    clock: fn() -> f64,
    prepare: impl Fn() + 'a,
    mut call: impl FnMut() -> A + 'a,
) -> Timed<'a> {
    Box::new(move |repeats| {
        let one = |_| {
            prepare();
            let start = clock();
            black_box(call());
            clock() - start
        };
        (0..repeats).map(one).fold(f64::INFINITY, f64::min)
    })
}

#[repr(C)]
#[derive(Default)]
struct Timespec {
    seconds: c_long,
    nanoseconds: c_long,
}

#[repr(C)]
#[derive(Default)]
struct Timeval {
    seconds: c_long,
    microseconds: c_long,
}

/// What a process or its children used; the counts behind the times are not looked at.
#[repr(C)]
#[derive(Default)]
struct Usage {
    user: Timeval,
    system: Timeval,
    counts: [c_long; 14],
}

extern "C" {
    fn clock_gettime(clock: c_int, time: *mut Timespec) -> c_int;
    fn getrusage(who: c_int, usage: *mut Usage) -> c_int;
}

const THREAD_CPUTIME: c_int = 3;
const CHILDREN: c_int = -1;

fn thread_seconds() -> f64 {
    let mut time = Timespec::default();
    assert_eq!(unsafe { clock_gettime(THREAD_CPUTIME, &mut time) }, 0, "no clock");
    time.seconds as f64 + time.nanoseconds as f64 * 1e-9
}

/// User and system time of the children that have ended.
fn children_seconds() -> f64 {
    let mut usage = Usage::default();
    assert_eq!(unsafe { getrusage(CHILDREN, &mut usage) }, 0, "no clock");
    let seconds = |time: &Timeval| time.seconds as f64 + time.microseconds as f64 * 1e-6;
    seconds(&usage.user) + seconds(&usage.system)
}

#[cfg(test)]
mod tests {
    use super::*;
    use std::process::Command;
    use std::time::Duration;

    fn busy() {
        (0..5_000_000_u64).for_each(|k| {
            black_box(k);
        });
    }

    #[test]
    fn work_counts_and_its_preparation_and_sleep_do_not() {
        let sleep = || std::thread::sleep(Duration::from_millis(50));
        let (work, asleep) = (calls(busy)(4), prepared(busy, sleep)(4));
        assert!(0.0 < asleep && 4.0 * asleep < work, "{asleep} {work}");
    }

    #[test]
    fn only_the_time_of_the_program_counts() {
        let run = |script: &'static str| {
            move || assert!(Command::new("sh").args(["-c", script]).status().expect("sh").success())
        };
        let nothing = runs(busy, run("sleep 0.05"))(2);
        let much = runs(|| (), run("i=0; while [ $i -lt 100000 ]; do i=$((i+1)); done"))(2);
        assert!(0.0 < nothing && 4.0 * nothing < much, "{nothing} {much}");
    }
}
