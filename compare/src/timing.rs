//! Times of calls that take turns, and the lines that tell them.

pub const TURNS: usize = 15;
/// Nanoseconds.
const TURN: f64 = 20e6;

/// Nanoseconds for one of each of the calls: the medians of their turns, which they
/// take one after the other.
pub fn medians<const N: usize>(mut calls: [&mut dyn FnMut(); N]) -> [f64; N] {
    let times = medians_of(&mut calls);
    times.try_into().expect("one for each call")
}

/// The same of as many calls as there are.
pub fn medians_of(calls: &mut [&mut dyn FnMut()]) -> Vec<f64> {
    let counts: Vec<u32> = calls.iter_mut().map(|call| count(call)).collect();
    let turns: Vec<Vec<f64>> = (0..TURNS).map(|_| turn(calls, &counts)).collect();
    (0..calls.len())
        .map(|of| median(turns.iter().map(|turn| turn[of]).collect()))
        .collect()
}

/// One turn of each call.
fn turn(calls: &mut [&mut dyn FnMut()], counts: &[u32]) -> Vec<f64> {
    let calls = calls.iter_mut().zip(counts);
    calls.map(|(call, count)| time(call, *count)).collect()
}

/// How many calls take about one turn.
fn count(call: &mut dyn FnMut()) -> u32 {
    let mut calls = 1;
    loop {
        let taken = time(call, calls);
        if taken * f64::from(calls) >= TURN {
            return calls;
        }
        calls *= 2;
    }
}

/// Nanoseconds for one call.
fn time(call: &mut dyn FnMut(), calls: u32) -> f64 {
    let start = spent();
    for _ in 0..calls {
        call();
    }
    (spent() - start) / f64::from(calls)
}

/// Linux's number of the clock that counts one thread's time on a processor.
const THREAD_TIME: i32 = 3;

#[repr(C)]
struct Time {
    seconds: i64,
    nanoseconds: i64,
}

extern "C" {
    fn clock_gettime(clock: i32, time: *mut Time) -> i32;
}

/// Nanoseconds that this thread has had a processor: what others do in between on a
/// shared machine is not counted.
fn spent() -> f64 {
    let mut time = Time {
        seconds: 0,
        nanoseconds: 0,
    };
    // SAFETY: the C library's function, on 64 bits, with a live place to write to.
    let status = unsafe { clock_gettime(THREAD_TIME, &mut time) };
    assert_eq!(status, 0, "a clock for this thread");
    time.seconds as f64 * 1e9 + time.nanoseconds as f64
}

fn median(mut times: Vec<f64>) -> f64 {
    times.sort_by(f64::total_cmp);
    times[times.len() / 2]
}

/// The head of a Markdown table: what stands in its first column, and what stands
/// beside our times.
pub fn heading(first: &str, beside: &[&str]) {
    let beside: String = beside.iter().map(|name| format!(" {name} |")).collect();
    println!("\n| {first} | bytes | rows | Falzheod ns | ns a row |{beside}");
    let columns = beside.matches('|').count() + 4;
    println!("|---|{}", "---:|".repeat(columns));
}

/// A line of that table.
pub fn line(name: &str, bytes: usize, rows: usize, ours: f64, beside: &[String]) {
    let beside: String = beside.iter().map(|cell| format!(" {cell} |")).collect();
    let each = ours / rows as f64;
    let digits = if each < 1_000.0 { 1 } else { 0 };
    println!("| {name} | {bytes} | {rows} | {ours:.0} | {each:.digits$} |{beside}");
}

/// Another's time and its ratio to ours, as two cells.
pub fn ratio_cells(other: f64, ours: f64) -> [String; 2] {
    let ratio = other / ours;
    // two digits that say something, for a small one too
    let digits = if ratio < 0.1 { 4 } else { 2 };
    [format!("{other:.0}"), format!("{ratio:.digits$}")]
}
