//! Work done side by side, on as many threads as can be had; where none can, on this one.

use std::env;
use std::num::NonZeroUsize;
use std::sync::{Mutex, MutexGuard, PoisonError};
use std::thread::{self, Builder};

/// No more, so that each may hold a file or two where a process may hold 64.
const MOST: usize = 24;

/// How many work side by side: as the environment says, else a core each.
pub fn count() -> usize {
    let asked = env::var("RAYON_NUM_THREADS").ok();
    let asked = asked.and_then(|text| text.trim().parse().ok());
    let cores = || thread::available_parallelism().map_or(1, NonZeroUsize::get);
    asked
        .filter(|count| *count > 0)
        .unwrap_or_else(cores)
        .min(MOST)
}

/// What comes of each item, in the items' order. An item is made as its turn comes.
pub fn map<T, R: Send>(
    items: impl ExactSizeIterator<Item = T> + Send,
    work: impl Fn(T) -> R + Sync,
) -> Vec<R> {
    let threads = count().min(items.len());
    let items = Mutex::new(items.enumerate());
    let done = Mutex::new(Vec::new());
    let next = || locked(&items).next();
    let go = || {
        while let Some((place, item)) = next() {
            let told = work(item);
            locked(&done).push((place, told));
        }
    };
    thread::scope(|scope| {
        for _ in 1..threads {
            // The others do its work.
            if Builder::new().spawn_scoped(scope, go).is_err() {
                break;
            }
        }
        go();
    });
    let mut done = done.into_inner().unwrap_or_else(PoisonError::into_inner);
    done.sort_by_key(|(place, _)| *place);
    done.into_iter().map(|(_, told)| told).collect()
}

/// What the lock is for, also where another that had it panicked.
pub fn locked<T>(lock: &Mutex<T>) -> MutexGuard<'_, T> {
    lock.lock().unwrap_or_else(PoisonError::into_inner)
}

#[cfg(test)]
mod tests {
    use super::map;

    #[test]
    fn each_item_is_worked_on_once_and_the_order_stays() {
        for count in [0, 1, 2, 1_000] {
            let items: Vec<usize> = (0..count).collect();
            let due: Vec<usize> = items.iter().map(|item| item * item).collect();
            assert_eq!(map(items.into_iter(), |item| item * item), due);
        }
    }
}
