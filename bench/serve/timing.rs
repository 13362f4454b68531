//! Work in several threads at once, and how long it took.

use std::sync::Barrier;
use std::thread;
use std::time::Instant;

/// When a thread began and ended, and the milliseconds of each of its messages.
struct Part {
    begun: Instant,
    ended: Instant,
    milliseconds: Vec<f64>,
}

impl Part {
    fn seconds(&self) -> f64 {
        (self.ended - self.begun).as_secs_f64()
    }
}

/// Gives each thread its number, and prints
/// - the seconds from the first that began to the last that ended, and the deliveries;
/// - the slowest thread's time over the quickest's: all have the same to do, so this is far above 1 where one
///   of them had to wait;
/// - of the times of a message in milliseconds the median, the one that 99 of 100 don't exceed, the longest.
pub fn print_times<W>(threads: usize, recipients: usize, work: W) -> Result<(), String>
where
    W: Fn(usize) -> Result<Vec<f64>, String> + Sync,
{
    let parts = run(threads, work)?;
    let begun = parts.iter().map(|part| part.begun).min().ok_or("no thread")?;
    let ended = parts.iter().map(|part| part.ended).max().ok_or("no thread")?;
    let seconds = (ended - begun).as_secs_f64();
    let slowest = parts.iter().map(Part::seconds).fold(0.0, f64::max);
    let quickest = parts.iter().map(Part::seconds).fold(slowest, f64::min);
    let mut times: Vec<f64> = parts.into_iter().flat_map(|part| part.milliseconds).collect();
    times.sort_unstable_by(f64::total_cmp);
    let share = |percent: usize| times[(times.len() * percent).div_ceil(100) - 1];
    let (p50, p99, max) = (share(50), share(99), share(100));
    let deliveries = times.len() * recipients;
    let uneven = slowest / quickest;
    print!("seconds={seconds:.4} deliveries={deliveries} uneven={uneven:.2} ");
    println!("p50_ms={p50:.3} p99_ms={p99:.3} max_ms={max:.3}");
    Ok(())
}

// Each thread reads the clock itself: on a busy machine the one that waits for them may come late.
fn run<W>(threads: usize, work: W) -> Result<Vec<Part>, String>
where
    W: Fn(usize) -> Result<Vec<f64>, String> + Sync,
{
    let gate = Barrier::new(threads);
    let (gate, work) = (&gate, &work);
    let part = move |number| {
        gate.wait();
        let begun = Instant::now();
        let milliseconds = work(number).map_err(|fault| format!("thread {number}: {fault}"))?;
        Ok(Part { begun, ended: Instant::now(), milliseconds })
    };
    thread::scope(|scope| {
        let running: Vec<_> = (0..threads).map(|number| scope.spawn(move || part(number))).collect();
        running.into_iter().map(|one| one.join().map_err(|_| "a thread panicked".to_string())?).collect()
    })
}
