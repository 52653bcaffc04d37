//! Times by the thread's own time on the processor, so that what else the machine does disturbs less.

/// Linux's number of the clock of a thread's own time.
const THREAD_CPUTIME: i32 = 3;
const TURNS: usize = 31;

#[repr(C)]
#[derive(Default)]
struct Time {
    seconds: i64,
    nanoseconds: i64,
}

unsafe extern "C" {
    fn clock_gettime(clock: i32, time: *mut Time) -> i32;
}

/// nanoseconds
fn now() -> f64 {
    let mut time = Time::default();
    let number = unsafe { clock_gettime(THREAD_CPUTIME, &mut time) };
    assert_eq!(number, 0, "a thread's own clock");
    time.seconds as f64 * 1e9 + time.nanoseconds as f64
}

/// nanoseconds of one piece of work, done `inner` times
fn time(work: &mut dyn FnMut(), inner: usize) -> f64 {
    let start = now();
    for _ in 0..inner {
        work();
    }
    (now() - start) / inner as f64
}

fn median(mut times: Vec<f64>) -> f64 {
    times.sort_by(f64::total_cmp);
    times[times.len() / 2]
}

/// the median of each, all by turns, so that a slow spell of the machine meets them alike
pub fn by_turns<const N: usize>(inner: usize, mut works: [&mut dyn FnMut(); N]) -> [f64; N] {
    let turns: Vec<[f64; N]> = (0..TURNS).map(|_| works.each_mut().map(|work| time(work, inner))).collect();
    std::array::from_fn(|k| median(turns.iter().map(|t| t[k]).collect()))
}
