//! CPU time, and turns.

/// A time of the C library.
#[repr(C)]
struct Time {
    seconds: i64,
    nanoseconds: i64,
}

extern "C" {
    fn clock_gettime(clock: i32, time: *mut Time) -> i32;
}

/// The CPU time that the process has used, in seconds.
pub fn now() -> f64 {
    const PROCESS: i32 = 2;
    let mut time = Time { seconds: 0, nanoseconds: 0 };
    // SAFETY: the time is lent to write, and the clock exists.
    let reply = unsafe { clock_gettime(PROCESS, &mut time) };
    assert!(reply == 0, "the process has a clock");
    time.seconds as f64 + time.nanoseconds as f64 * 1e-9
}

/// The times of one side over several turns, in seconds a run.
#[derive(Clone, Copy)]
pub struct Times {
    pub median: f64,
    pub least: f64,
}

/// The times of two jobs that take turns; a turn repeats its job until it has taken so long.
pub fn turns(count: usize, long: f64, mut jobs: [&mut dyn FnMut(); 2]) -> [Times; 2] {
    let mut lists = [Vec::new(), Vec::new()];
    for _ in 0..count {
        for (job, list) in jobs.iter_mut().zip(&mut lists) {
            let (start, mut runs) = (now(), 0.0);
            while runs == 0.0 || now() - start < long {
                job();
                runs += 1.0;
            }
            list.push((now() - start) / runs);
        }
    }
    lists.map(|mut list| {
        list.sort_by(f64::total_cmp);
        Times { median: list[list.len() / 2], least: list[0] }
    })
}
