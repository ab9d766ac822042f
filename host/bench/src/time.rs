//! The clock: several kinds of work by turns, and the least time of each.

use std::time::{Duration, Instant};

/// Work on the same buffers; what it answers is not looked at here.
pub type Work<'a, B> = &'a dyn Fn(&mut B);

/// The least time of a call of each, in nanoseconds. The kinds of work take turns, so
/// that they meet the same state of the machine, and the least of many rounds is what
/// was measured while nothing else ran. The turns change from round to round: what one
/// leaves in the caches is its neighbour's gain or loss, and each is every other's
/// neighbour as often. `rounds` rounds, or as many as there are turns if that is more; a
/// run is many calls where one is short beside the clock's own cost.
pub fn least<B, const N: usize>(buffers: &mut B, rounds: usize, work: [Work<B>; N]) -> [f64; N] {
    let mut least = [f64::INFINITY; N];
    let calls = work.map(|work| calls_in_a_run(buffers, work));
    for round in 0..rounds.max(2 * N) {
        for i in turn::<N>(round) {
            let began = Instant::now();
            for _ in 0..calls[i] {
                work[i](std::hint::black_box(buffers));
            }
            let each = began.elapsed().as_nanos() as f64 / calls[i] as f64;
            least[i] = least[i].min(each);
        }
    }
    least
}

/// Who comes when in a round: as many rounds forwards as there are kinds, each beginning
/// one further on, then as many backwards. So of three each follows each other as often,
/// from one round to the next too.
pub fn turn<const N: usize>(round: usize) -> [usize; N] {
    let first = round % N;
    std::array::from_fn(|i| match round / N % 2 {
        0 => (first + i) % N,
        _ => (2 * N - 1 - first - i) % N,
    })
}

/// As many as take about 60 microseconds.
fn calls_in_a_run<B>(buffers: &mut B, work: Work<B>) -> u32 {
    work(buffers);
    let began = Instant::now();
    work(buffers);
    let once = began.elapsed().max(Duration::from_nanos(20));
    (60_000 / once.as_nanos() as u32).max(1)
}
