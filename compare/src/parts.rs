//! Work in parts, side by side. What a part does depends on its number alone, so results are the same on every machine.

use std::sync::Mutex;
use std::sync::atomic::{AtomicUsize, Ordering};

/// What the parts give, in order; `each` is told of them in order too, as soon as it can be.
pub fn side_by_side<T: Send>(
    parts: usize,
    work: impl Fn(usize) -> T + Sync,
    mut each: impl FnMut(T) + Send,
) {
    let next = AtomicUsize::new(0);
    let done: Mutex<Vec<Option<T>>> = Mutex::new((0..parts).map(|_| None).collect());
    let told = Mutex::new((0, &mut each));
    let threads = std::thread::available_parallelism().map_or(1, usize::from);
    std::thread::scope(|scope| {
        for _ in 0..threads.min(parts) {
            scope.spawn(|| {
                loop {
                    let part = next.fetch_add(1, Ordering::Relaxed);
                    if part >= parts {
                        break;
                    }
                    let result = work(part);
                    done.lock().expect("no part panics")[part] = Some(result);
                    let mut told = told.lock().expect("no part panics");
                    while let Some(result) = finished(&done, told.0) {
                        told.0 += 1;
                        (told.1)(result);
                    }
                }
            });
        }
    });
}

fn finished<T>(done: &Mutex<Vec<Option<T>>>, part: usize) -> Option<T> {
    done.lock().expect("no part panics").get_mut(part)?.take()
}
