//! Parts don't know of each other: as many are worked on at once as there are cores.

use std::sync::atomic::{AtomicBool, AtomicUsize, Ordering};
use std::thread;

/// What the work gives for each item, in their order; the first error in that order that was met.
pub fn each<I: Sync, T: Send, E: Send>(
    items: &[I],
    progress: fn(usize, usize),
    work: impl Fn(&I) -> Result<T, E> + Sync,
) -> Result<Vec<T>, E> {
    let cores = thread::available_parallelism().map_or(1, usize::from);
    let (next, done, stop) = (
        AtomicUsize::new(0),
        AtomicUsize::new(0),
        AtomicBool::new(false),
    );
    let worker = || {
        let mut mine = vec![];
        while !stop.load(Ordering::Relaxed) {
            let i = next.fetch_add(1, Ordering::Relaxed);
            let Some(item) = items.get(i) else { break };
            let came = work(item);
            stop.fetch_or(came.is_err(), Ordering::Relaxed);
            mine.push((i, came));
            progress(done.fetch_add(1, Ordering::Relaxed) + 1, items.len());
        }
        mine
    };
    let mut came = thread::scope(|scope| {
        let others: Vec<_> = (1..cores.min(items.len()))
            .map(|_| scope.spawn(worker))
            .collect();
        let mut came = worker();
        for other in others {
            came.extend(
                other
                    .join()
                    .unwrap_or_else(|panic| std::panic::resume_unwind(panic)),
            );
        }
        came
    });
    came.sort_by_key(|(i, _)| *i);
    came.into_iter().map(|(_, came)| came).collect()
}

#[cfg(test)]
mod tests {
    use super::*;

    #[test]
    fn order_stays_and_an_error_ends_it() {
        let items: Vec<usize> = (0..100).collect();
        let twice = each(&items, |_, _| {}, |n| Ok::<usize, ()>(n * 2));
        assert_eq!(twice, Ok(items.iter().map(|n| n * 2).collect()));
        let wrong = each(
            &items,
            |_, _| {},
            |n| if *n == 40 { Err(*n) } else { Ok(*n) },
        );
        assert_eq!(wrong, Err(40));
        assert_eq!(
            each(&[], |_, _| {}, |n: &usize| Ok::<usize, ()>(*n)),
            Ok(vec![])
        );
    }
}
