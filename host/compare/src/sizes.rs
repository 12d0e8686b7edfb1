//! Long random series on both sizes of the array at once.
use crate::asked::{asked, clock};
use crate::call::Call;
use crate::series::report;
use oxterin::Size;
use std::thread;

/// Makes series on both sizes, so many frames in all, and gives what came of each. `COMPARE_FRAMES` asks for more frames, and
/// `COMPARE_SEED` for the series of an earlier run; `many` is given the seed, the size and its share of the frames.
///
/// # Panics
///
/// The sides differ in a series; what is said is how to run it again.
pub fn both_sizes<T: Send>(frames: u64, many: impl Fn(u64, Size, u64) -> Result<T, Vec<Call>> + Sync) -> [(Size, T); 2] {
    let seed = asked("COMPARE_SEED").unwrap_or_else(clock);
    let frames = asked("COMPARE_FRAMES").unwrap_or(0).max(frames);
    println!("COMPARE_SEED={seed} COMPARE_FRAMES={frames}");
    let many = &many;
    let runs = thread::scope(|scope| {
        Size::ALL
            .map(|size| (size, scope.spawn(move || many(seed, size, frames.div_ceil(2)))))
            .map(|(size, thread)| (size, thread.join().expect("the series end")))
    });
    runs.map(|(size, run)| {
        let came = run.unwrap_or_else(|calls| panic!("COMPARE_SEED={seed}, {size:?}: {}", report(calls)));
        (size, came)
    })
}
