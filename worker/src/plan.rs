//! How a report is cut, and in which order with which guesses its chunks are stepped.

use crate::calls::Call;
use crate::random::Random;

/// The most chunks that a report can be cut into.
pub const CHUNKS: usize = 64;

/// What is guessed of the chunks.
#[derive(Clone, Copy, Debug, PartialEq, Eq)]
pub enum Guesses {
    Outside,
    Inside,
    Random,
}

/// In which order the steps are taken.
#[derive(Clone, Copy, Debug, PartialEq, Eq)]
pub enum Order {
    /// All scans, then settle and level of each chunk, from the first to the last.
    Forward,
    /// Scans and levels from the last chunk to the first; settles cannot.
    Backward,
    /// Any step that is accepted, drawn one after another.
    Random,
}

/// So many cuts, as even as multiples of 64 can be; fewer where the record is too short for them.
pub fn even_cuts(n: usize, count: usize) -> Vec<usize> {
    let words = n.div_ceil(64);
    let chunks = count.saturating_add(1).min(words);
    (1..chunks).map(|k| 64 * (words / chunks * k + words % chunks * k / chunks)).collect()
}

/// Calls that leave out no step, each of which is accepted. Chunks above the 64th have none: no opening accepts them.
pub fn calls(chunks: usize, guesses: Guesses, order: Order, seed: u64) -> Vec<Call> {
    let mut random = Random(seed);
    let scans: Vec<Call> = (0..chunks.min(CHUNKS)).map(|k| Call::scan(k, guess(guesses, &mut random))).collect();
    match order {
        Order::Forward => forward(scans),
        Order::Backward => backward(scans),
        Order::Random => drawn(scans, &mut random),
    }
}

fn forward(mut calls: Vec<Call>) -> Vec<Call> {
    calls.extend((0..calls.len()).flat_map(|k| [Call::settle(k), Call::level(k)]));
    calls
}

fn backward(mut calls: Vec<Call>) -> Vec<Call> {
    let chunks = calls.len();
    calls.reverse();
    calls.extend((0..chunks).map(Call::settle));
    calls.extend((0..chunks).rev().map(Call::level));
    calls
}

/// Draws a step, scan, settle or level, then the chunk, until each step was taken; what is too early is drawn again.
fn drawn(scans: Vec<Call>, random: &mut Random) -> Vec<Call> {
    let chunks = scans.len();
    let mut unscanned: Vec<usize> = (0..chunks).collect();
    let mut settled = 0;
    let mut unlevelled = Vec::new();
    let mut calls = Vec::with_capacity(3 * chunks);
    while calls.len() < 3 * chunks {
        match random.below(3) {
            0 if !unscanned.is_empty() => {
                let chunk = unscanned.swap_remove(random.below(unscanned.len()));
                calls.push(scans[chunk]);
            }
            1 if settled < chunks && !unscanned.contains(&settled) => {
                calls.push(Call::settle(settled));
                unlevelled.push(settled);
                settled += 1;
            }
            2 if !unlevelled.is_empty() => {
                let chunk = unlevelled.swap_remove(random.below(unlevelled.len()));
                calls.push(Call::level(chunk));
            }
            _ => {}
        }
    }
    calls
}

/// Inside?
fn guess(guesses: Guesses, random: &mut Random) -> bool {
    match guesses {
        Guesses::Outside => false,
        Guesses::Inside => true,
        Guesses::Random => random.below(2) == 1,
    }
}

#[cfg(test)]
mod tests {
    use super::*;

    /// Takes the steps as the scope says when each is accepted, and tells which was refused.
    fn refused(chunks: usize, calls: &[Call]) -> Option<usize> {
        let mut had = vec![[false; 3]; chunks];
        for (i, call) in calls.iter().enumerate() {
            let (chunk, step) = (usize::from(call.byte() / 4), usize::from(call.byte() % 4).max(1) - 1);
            let ready = match step {
                0 => true,
                1 => had[chunk][0] && (chunk == 0 || had[chunk - 1][1]),
                _ => had[chunk][1],
            };
            if !ready || had[chunk][step] {
                return Some(i);
            }
            had[chunk][step] = true;
        }
        assert_eq!(had, vec![[true; 3]; chunks]);
        None
    }

    #[test]
    fn every_plan_takes_every_step_once_and_in_time() {
        for chunks in [1, 2, 3, 7, 64] {
            for order in [Order::Forward, Order::Backward, Order::Random] {
                for guesses in [Guesses::Outside, Guesses::Inside, Guesses::Random] {
                    for seed in 0..20 {
                        assert_eq!(refused(chunks, &calls(chunks, guesses, order, seed)), None);
                    }
                }
            }
        }
    }

    #[test]
    fn orders_and_guesses_are_as_named() {
        let bytes = |calls: Vec<Call>| -> Vec<u8> { calls.into_iter().map(Call::byte).collect() };
        let three = |guesses, order| bytes(calls(3, guesses, order, 1));
        assert_eq!(three(Guesses::Outside, Order::Forward), [0, 4, 8, 2, 3, 6, 7, 10, 11]);
        assert_eq!(three(Guesses::Inside, Order::Backward), [9, 5, 1, 2, 6, 10, 11, 7, 3]);
        let seeds = |order, guesses| (0..40).map(move |s| bytes(calls(7, guesses, order, s)));
        let orders: std::collections::HashSet<Vec<u8>> = seeds(Order::Random, Guesses::Outside).collect();
        assert!(orders.len() > 35, "random orders differ");
        let guesses: std::collections::HashSet<Vec<u8>> = seeds(Order::Forward, Guesses::Random).collect();
        assert!(guesses.len() > 25, "random guesses differ");
        assert_eq!(
            bytes(calls(7, Guesses::Random, Order::Random, 5)),
            bytes(calls(7, Guesses::Random, Order::Random, 5))
        );
    }

    #[test]
    fn cuts_are_even_and_inside() {
        assert_eq!(even_cuts(640, 1), [320]);
        assert_eq!(even_cuts(641, 2), [192, 448]);
        assert_eq!(even_cuts(100, 63), [64]);
        assert_eq!(even_cuts(64, 63), [0; 0]);
        assert_eq!(even_cuts(0, 5), [0; 0]);
        assert_eq!(even_cuts(6400, 0), [0; 0]);
        assert_eq!(even_cuts(usize::MAX, 1), [1 << 63]);
        for n in [4096, 4097, 5000, 16_777_216] {
            let borders = [vec![0], even_cuts(n, 63), vec![n]].concat();
            let sizes: Vec<usize> = borders.windows(2).map(|b| (b[1] - b[0]).div_ceil(64)).collect();
            assert_eq!(sizes.len(), 64);
            assert!(sizes.iter().max().unwrap() - sizes.iter().min().unwrap() <= 1);
        }
    }
}
