//! Runs of ticks, and the filling of the gaps between them.

use super::excitation::{Excitation, Signal, UncertaintySet};

/// A run: neighbouring ticks, from the first to the last.
#[derive(Clone, Copy, Debug, PartialEq, Eq)]
struct Run {
    first: usize,
    last: usize,
}

/// Fills the sets of a gate at ticks 0 to 255: for each excitation, take the
/// maximal runs of ticks that hold it, and while runs exceed the hop limit, fill
/// the shortest gap, the earliest on a tie.
pub fn fill(sets: &mut [UncertaintySet], hop_limit: u64) {
    for excitation in Excitation::ALL {
        let mut runs = maximal_runs(sets, excitation);
        while runs.len() as u64 > hop_limit {
            fill_shortest_gap(&mut runs);
        }
        for run in runs {
            for set in &mut sets[run.first..=run.last] {
                set.insert(excitation);
            }
        }
    }
}

/// The maximal runs of ticks that hold the excitation, the earliest first.
fn maximal_runs(sets: &[UncertaintySet], excitation: Excitation) -> Vec<Run> {
    let mut runs: Vec<Run> = Vec::new();
    for (tick, set) in sets.iter().enumerate() {
        if set.has(excitation) {
            match runs.last_mut() {
                Some(run) if run.last + 1 == tick => run.last = tick,
                _ => runs.push(Run {
                    first: tick,
                    last: tick,
                }),
            }
        }
    }
    runs
}

/// Fills the shortest gap between two neighbouring runs, the earliest on a tie,
/// so that the two become one run. There are at least two runs.
fn fill_shortest_gap(runs: &mut Vec<Run>) {
    let mut shortest = 0;
    for place in 1..runs.len() - 1 {
        if gap_after(runs, place) < gap_after(runs, shortest) {
            shortest = place;
        }
    }
    runs[shortest].last = runs[shortest + 1].last;
    runs.remove(shortest + 1);
}

/// How many ticks stand between the run at this place and the next.
fn gap_after(runs: &[Run], place: usize) -> usize {
    runs[place + 1].first - runs[place].last - 1
}

#[cfg(test)]
mod tests {
    use super::*;

    /// The ticks that hold hl once the sets that hold it at these ticks are filled.
    fn filled(ticks: &[usize], hop_limit: u64) -> Vec<usize> {
        let mut sets = [UncertaintySet::EMPTY; 256];
        for &tick in ticks {
            sets[tick].insert(Excitation::Hl);
        }
        fill(&mut sets, hop_limit);
        for others in [Excitation::L, Excitation::H, Excitation::Lh] {
            assert!(sets.iter().all(|set| !set.has(others)));
        }
        let holding = (0..256).filter(|&tick| sets[tick].has(Excitation::Hl));
        holding.collect()
    }

    /// Runs at 2, 4, 9: two hops give [2,4] and 9; one gives [2,9].
    #[test]
    fn runs_at_2_4_9() {
        assert_eq!(filled(&[2, 4, 9], 3), [2, 4, 9]);
        assert_eq!(filled(&[2, 4, 9], 2), [2, 3, 4, 9]);
        assert_eq!(filled(&[2, 4, 9], 1), [2, 3, 4, 5, 6, 7, 8, 9]);
    }

    /// Runs at 2, 4, 6, two hops: [2,4] and 6.
    #[test]
    fn runs_at_2_4_6() {
        assert_eq!(filled(&[2, 4, 6], 2), [2, 3, 4, 6]);
    }

    /// Neighbouring ticks form one run, so [2,2] and [3,3] are [2,3].
    #[test]
    fn neighbours_are_one_run() {
        assert_eq!(filled(&[2, 3, 7], 2), [2, 3, 7]);
        assert_eq!(filled(&[0, 255], 2), [0, 255]);
        assert_eq!(filled(&[0, 255], 1), (0..256).collect::<Vec<_>>());
    }

    #[test]
    fn each_excitation_has_its_own_runs() {
        let mut sets = [UncertaintySet::EMPTY; 8];
        sets[0].insert(Excitation::L);
        sets[2].insert(Excitation::Lh);
        sets[4].insert(Excitation::L);
        sets[5].insert(Excitation::Lh);
        fill(&mut sets, 1);
        let holding = |excitation| (0..8).filter(move |&tick: &usize| sets[tick].has(excitation));
        assert!(holding(Excitation::L).eq(0..=4));
        assert!(holding(Excitation::Lh).eq(2..=5));
        assert!(holding(Excitation::H).eq([]));
    }
}
