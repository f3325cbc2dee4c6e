//! Times: of the thread where the system tells it, so that other work on the machine counts little.

use std::time::Duration;

/// What is measured, for the heading of the tables.
#[cfg(target_os = "linux")]
pub const KIND: &str = "thread time";
#[cfg(not(target_os = "linux"))]
pub const KIND: &str = "wall time";

#[cfg(target_os = "linux")]
pub fn now() -> Duration {
    /// As C has it on x86-64.
    #[repr(C)]
    struct Time {
        seconds: i64,
        nanos: i64,
    }
    extern "C" {
        fn clock_gettime(clock: i32, time: *mut Time) -> i32;
    }
    const THREAD: i32 = 3;
    let mut time = Time { seconds: 0, nanos: 0 };
    // SAFETY: the C library writes one Time and keeps nothing.
    let failed = unsafe { clock_gettime(THREAD, &mut time) };
    assert_eq!(failed, 0, "the system tells a thread's time");
    Duration::new(time.seconds as u64, time.nanos as u32)
}

#[cfg(not(target_os = "linux"))]
pub fn now() -> Duration {
    use std::sync::OnceLock;
    use std::time::Instant;
    static START: OnceLock<Instant> = OnceLock::new();
    START.get_or_init(Instant::now).elapsed()
}

/// The time of one call.
pub fn time(run: impl FnOnce()) -> Duration {
    let start = now();
    run();
    now() - start
}

/// A turn takes at least this long, so that reading the clock does not count.
const TURN: Duration = Duration::from_millis(1);
/// No side is run for longer than this in all, but for its first turn.
const ENOUGH: Duration = Duration::from_millis(800);
/// Turns of each side where it is quick.
pub const TURNS: usize = 40;

/// One of the sides that are compared.
pub struct Side<'a> {
    run: Box<dyn FnMut() + 'a>,
    repeats: u32,
    spent: Duration,
    least: Duration,
}

impl<'a> Side<'a> {
    /// The run is done once here, to see how often it fits into a turn.
    pub fn new(run: impl FnMut() + 'a) -> Side<'a> {
        let mut side = Side { run: Box::new(run), repeats: 1, spent: Duration::ZERO, least: Duration::MAX };
        side.turn();
        if side.least < TURN {
            side.repeats = (TURN.as_nanos() / side.least.as_nanos().max(1)) as u32 + 1;
        }
        side
    }

    fn turn(&mut self) {
        let spent = time(|| (0..self.repeats).for_each(|_| (self.run)()));
        self.spent += spent;
        self.least = self.least.min(spent / self.repeats);
    }
}

/// The least time of a run of each side, in µs: the sides are run in turns, so that what disturbs one
/// disturbs all.
pub fn in_turns(sides: &mut [Side]) -> Vec<f64> {
    for _ in 0..TURNS {
        for side in sides.iter_mut() {
            if side.spent < ENOUGH {
                side.turn();
            }
        }
    }
    sides.iter().map(|side| side.least.as_secs_f64() * 1e6).collect()
}
