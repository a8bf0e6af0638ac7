//! Rounds, taken in turn by all contestants so that a busy machine hits them alike; the minimum counts.

/// One round of a contestant: the nanoseconds it took, preparation left out.
pub type Contestant<'a> = Box<dyn FnMut() -> f64 + 'a>;

/// Each contestant's least nanoseconds: at least two rounds, at most so many, and no further round once it has used its
/// seconds.
pub fn contest(contestants: &mut [Contestant<'_>], seconds: f64, most: u32) -> Vec<f64> {
    let mut least = vec![f64::INFINITY; contestants.len()];
    let mut used = vec![0.0; contestants.len()];
    for round in 0..most {
        for (k, contestant) in contestants.iter_mut().enumerate() {
            if round < 2 || used[k] < seconds * 1e9 {
                let took = contestant();
                least[k] = f64::min(least[k], took);
                used[k] += took;
            }
        }
    }
    least
}

/// The nanoseconds of this thread that the work takes: time in which the machine runs others is not counted.
pub fn nanoseconds(work: impl FnOnce()) -> f64 {
    let start = thread_time();
    work();
    thread_time() - start
}

/// Seconds and nanoseconds, as C has them on 64-bit Linux.
#[repr(C)]
struct Timespec {
    seconds: i64,
    nanoseconds: i64,
}

extern "C" {
    fn clock_gettime(clock: i32, time: *mut Timespec) -> i32;
}

const CLOCK_THREAD_CPUTIME_ID: i32 = 3;

fn thread_time() -> f64 {
    let mut time = Timespec { seconds: 0, nanoseconds: 0 };
    let failed = unsafe { clock_gettime(CLOCK_THREAD_CPUTIME_ID, &mut time) };
    assert_eq!(failed, 0, "the clock of this thread can be read");
    time.seconds as f64 * 1e9 + time.nanoseconds as f64
}
