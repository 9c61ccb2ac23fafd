//! CPU time: cores may be shared, and wall time would measure the neighbours.

// CLOCK_THREAD_CPUTIME_ID of Linux.
const THREAD_CPU: i32 = 3;
const LEAST_BATCH_NS: i64 = 200_000;
const LEAST_TURNS: usize = 5;
const MOST_TURNS: usize = 40;
const MOST_NS: i64 = 400_000_000;

extern "C" {
    fn clock_gettime(clock: i32, time: *mut [i64; 2]) -> i32;
}

fn cpu_ns() -> i64 {
    let mut t = [0; 2];
    // SAFETY: two 64-bit numbers are what the call writes on 64-bit Linux.
    let failed = unsafe { clock_gettime(THREAD_CPU, &mut t) };
    assert_eq!(failed, 0, "no clock of CPU time");
    t[0] * 1_000_000_000 + t[1]
}

fn run(turn: &mut dyn FnMut(), times: u32) -> i64 {
    let start = cpu_ns();
    for _ in 0..times {
        turn();
    }
    cpu_ns() - start
}

// How many runs take long enough for the clock.
fn batch(turn: &mut dyn FnMut()) -> u32 {
    let mut times = 1;
    while run(turn, times) < LEAST_BATCH_NS && times < 1 << 20 {
        times *= 2;
    }
    times
}

/// The best time of each, in microseconds a run, all by turns.
pub fn best_of(turns: &mut [Box<dyn FnMut() + '_>]) -> Vec<f64> {
    let batches: Vec<u32> = turns.iter_mut().map(|t| batch(t)).collect();
    let mut best = vec![f64::MAX; turns.len()];
    let start = cpu_ns();
    for k in 0..MOST_TURNS {
        if k >= LEAST_TURNS && cpu_ns() - start > MOST_NS {
            break;
        }
        for (i, turn) in turns.iter_mut().enumerate() {
            let ns = run(turn, batches[i]) as f64 / batches[i] as f64;
            best[i] = best[i].min(ns / 1000.0);
        }
    }
    best
}
