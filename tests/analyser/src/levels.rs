//! Levels between the rough and the exact bound (document 02, request 13): alignments are fixed for the
//! frame's own group, then for the others rising, one group more at each level.

use crate::bounds::{Alignment, View};
use crate::judgement::Search;

/// The greatest response so far, the rough bound, and how many combinations may still be looked at.
struct Found {
    best: u64,
    rough: u64,
    left: u64,
}

impl View<'_> {
    /// The order in which levels fix the groups.
    pub(crate) fn level_order(&self) -> Vec<usize> {
        [self.own].into_iter().chain(self.other_groups()).collect()
    }

    /// The product of the alignments that a level fixes.
    pub fn level_product(&self, depth: usize) -> u64 {
        let order = self.level_order();
        let counts = order[..depth].iter().map(|group| self.groups[*group].len() as u64);
        counts.fold(1, u64::saturating_mul)
    }

    /// The deepest level whose product is at most a number, by how many groups it fixes.
    pub fn deepest_level(&self, most: u64) -> usize {
        let levels = 1..=self.groups.len();
        levels.rev().find(|depth| self.level_product(*depth) <= most).unwrap_or(1)
    }

    /// The bound of a level, by every combination of the alignments that it fixes or without those that
    /// cannot exceed one already seen; none if some combination has no window.
    pub fn level(&self, search: Search, depth: usize, limit: u64) -> Option<u64> {
        match search {
            Search::Plain => self.level_plain(&mut vec![None; self.groups.len()], depth, limit),
            Search::Pruned => self.level_pruned(depth, limit),
        }
    }

    /// The exact bound where so many combinations suffice to find it, however many scenarios there are:
    /// none is looked at once a response is as great as the rough bound.
    pub fn exact_within(&self, combinations: u64, limit: u64) -> Option<u64> {
        let mut found = Found { best: 0, rough: self.rough(limit)?.response, left: combinations };
        let order = self.level_order();
        for own in &self.groups[self.own] {
            let mut fixed = vec![None; self.groups.len()];
            fixed[self.own] = Some(own);
            self.look(&mut fixed, &order[1..], limit, &mut found)?;
        }
        Some(found.best)
    }

    fn look<'b>(
        &'b self,
        fixed: &mut Vec<Option<&'b Alignment>>,
        open: &[usize],
        limit: u64,
        found: &mut Found,
    ) -> Option<()> {
        if found.best == found.rough {
            return Some(());
        }
        found.left = found.left.checked_sub(1)?;
        let response = self.response_at(fixed, limit)?;
        let Some((next, rest)) = open.split_first().filter(|_| response > found.best) else {
            found.best = found.best.max(if open.is_empty() { response } else { 0 });
            return Some(());
        };
        for alignment in &self.groups[*next] {
            fixed[*next] = Some(alignment);
            self.look(fixed, rest, limit, found)?;
        }
        fixed[*next] = None;
        Some(())
    }

    /// The greatest response with the groups fixed so, and those that are not at their greatest sums.
    fn response_at(&self, fixed: &[Option<&Alignment>], limit: u64) -> Option<u64> {
        let work = |group: usize, end| match fixed[group] {
            Some(alignment) => alignment.work(end),
            None => self.greatest(group, end),
        };
        let others = |end| self.other_groups().map(|group| work(group, end)).sum();
        let own = fixed[self.own].expect("the own group is fixed first");
        self.worst(own, &others, limit).map(|worst| worst.response)
    }

    /// With some groups fixed, fixes the next one that the level fixes; groups that it leaves open
    /// contribute the greatest sum at each length.
    fn level_plain<'b>(
        &'b self,
        fixed: &mut Vec<Option<&'b Alignment>>,
        depth: usize,
        limit: u64,
    ) -> Option<u64> {
        let order = self.level_order();
        let next = order[..depth].iter().find(|group| fixed[**group].is_none());
        let Some(&next) = next else {
            return self.response_at(fixed, limit);
        };
        let mut bound = 0;
        for alignment in &self.groups[next] {
            fixed[next] = Some(alignment);
            bound = bound.max(self.level_plain(fixed, depth, limit)?);
        }
        fixed[next] = None;
        Some(bound)
    }
}
