//! The moves that are needed after first fit.

use compare::roof::Roof;
use std::collections::VecDeque;

/// The most panes that have to move at once so that one more is served, where first fit is followed by the
/// shortest chains.
pub fn longest_chain(roof: &Roof) -> usize {
    let mut chains = Chains::of_first_fit(roof);
    let mut longest = 0;
    while let Some(moves) = chains.serve_one_more() {
        longest = longest.max(moves);
    }
    assert_eq!(
        chains.glass_of.iter().flatten().count(),
        roof.flow.most_served
    );
    longest
}

struct Chains<'a> {
    roof: &'a Roof,
    glass_of: Vec<Option<usize>>,
}

impl Chains<'_> {
    fn of_first_fit(roof: &Roof) -> Chains<'_> {
        let glass_of = vec![None; roof.job.panes().len()];
        let mut chains = Chains { roof, glass_of };
        for pane in 0..chains.glass_of.len() {
            let glass = roof.passing(pane).find(|&glass| chains.has_spare(glass));
            chains.glass_of[pane] = glass;
        }
        chains
    }

    /// Serves one more pane by a shortest chain, and gives how many others had to move for it.
    fn serve_one_more(&mut self) -> Option<usize> {
        let panes = 0..self.glass_of.len();
        let mut queue: VecDeque<usize> = panes
            .filter(|&pane| self.glass_of[pane].is_none())
            .collect();
        // The pane that would take each glass.
        let mut taker = vec![None; self.roof.job.glasses().len()];
        while let Some(pane) = queue.pop_front() {
            for glass in self.roof.passing(pane) {
                if taker[glass].is_some() {
                    continue;
                }
                taker[glass] = Some(pane);
                if self.has_spare(glass) {
                    return Some(self.make_moves(glass, &taker));
                }
                queue.extend(self.holders(glass));
            }
        }
        None
    }

    /// Gives the glass to its taker, the glass of that pane to its taker, and so on.
    fn make_moves(&mut self, mut glass: usize, taker: &[Option<usize>]) -> usize {
        let mut moves = 0;
        loop {
            let pane = taker[glass].expect("a taker");
            match self.glass_of[pane].replace(glass) {
                Some(left) => glass = left,
                None => return moves,
            }
            moves += 1;
        }
    }

    fn holders(&self, glass: usize) -> impl Iterator<Item = usize> + '_ {
        let panes = 0..self.glass_of.len();
        panes.filter(move |&pane| self.glass_of[pane] == Some(glass))
    }

    fn has_spare(&self, glass: usize) -> bool {
        let stock = usize::from(self.roof.job.glasses()[glass].stock);
        self.holders(glass).count() < stock
    }
}
