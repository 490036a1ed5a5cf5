//! The clock, and the median of several rounds in which everything measured takes its turn.

#[repr(C)]
struct Timespec {
    seconds: i64,
    nanoseconds: i64,
}

extern "C" {
    fn clock_gettime(clock: i32, time: *mut Timespec) -> i32;
}

const PROCESS_CPUTIME: i32 = 2;

/// Seconds of processor time of this process: what other programs use meanwhile is not counted.
pub fn seconds() -> f64 {
    let mut time = Timespec {
        seconds: 0,
        nanoseconds: 0,
    };
    // SAFETY: `time` has the layout of x86-64 Linux's struct timespec and lives through the call.
    let status = unsafe { clock_gettime(PROCESS_CPUTIME, &mut time) };
    assert_eq!(status, 0, "clock_gettime");
    time.seconds as f64 + time.nanoseconds as f64 * 1e-9
}

/// How thoroughly things are measured.
#[derive(Clone, Copy)]
pub struct Pace {
    pub rounds: usize,
    /// For so many seconds a call is repeated in a round, but once at least.
    pub batch: f64,
    /// For so many seconds a search for a slow input goes on.
    pub search: f64,
    /// The rows under which the records are doubled.
    pub rows: usize,
}

pub const FULL: Pace = Pace {
    rounds: 15,
    batch: 4e-3,
    search: 10.0,
    rows: 1024,
};

/// One of many runs whose medians are compared.
pub const BRIEF: Pace = Pace {
    rounds: 3,
    batch: 1e-3,
    search: 0.0,
    rows: 128,
};

/// One call each: enough to see that everything runs and agrees.
pub const QUICK: Pace = Pace {
    rounds: 1,
    batch: 0.0,
    search: 0.2,
    rows: 128,
};

/// Seconds of one call in a batch of so many.
pub fn each(calls: usize, call: &mut dyn FnMut()) -> f64 {
    let began = seconds();
    for _ in 0..calls {
        call();
    }
    (seconds() - began) / calls as f64
}

pub fn median(mut times: Vec<f64>) -> f64 {
    times.sort_by(f64::total_cmp);
    times[times.len() / 2]
}

/// The median of the rounds' own ratios: where the machine is slow for some rounds, both of a round are.
pub fn ratio(over: &[f64], under: &[f64]) -> f64 {
    median(over.iter().zip(under).map(|(a, b)| a / b).collect())
}

/// Microseconds of one call of each, the median of the rounds.
pub fn medians(pace: Pace, calls: &mut [&mut dyn FnMut()]) -> Vec<f64> {
    rounds(pace, calls).into_iter().map(median).collect()
}

/// Microseconds of one call of each, round by round. In a round each is measured once, so that a slow stretch of the
/// machine meets all.
pub fn rounds(pace: Pace, calls: &mut [&mut dyn FnMut()]) -> Vec<Vec<f64>> {
    let mut batches = vec![1; calls.len()];
    if pace.batch > 0.0 {
        for (batch, call) in batches.iter_mut().zip(calls.iter_mut()) {
            *batch = (pace.batch / (each(1, call) + 1e-7)).max(1.0) as usize;
        }
    }
    let mut times = vec![Vec::new(); calls.len()];
    for _ in 0..pace.rounds {
        for (i, call) in calls.iter_mut().enumerate() {
            times[i].push(each(batches[i], call) * 1e6);
        }
    }
    times
}

const FLUSHED: usize = 64 << 20;

/// The same with 64 MiB written before every call: nothing of the buffers is left in the caches.
pub fn cold_rounds(rounds: usize, calls: &mut [&mut dyn FnMut()]) -> Vec<Vec<f64>> {
    let mut flushed = vec![1u8; FLUSHED];
    let mut times = vec![Vec::new(); calls.len()];
    for _ in 0..rounds {
        for (i, call) in calls.iter_mut().enumerate() {
            for line in flushed.chunks_mut(64) {
                line[0] = line[0].wrapping_add(1);
            }
            std::hint::black_box(&mut flushed);
            times[i].push(each(1, call) * 1e6);
        }
    }
    times
}
