//! Costs of rows, the bytes of their least bodies, that add up to a chosen body.

use crate::random::Random;

/// Rows of one width, and the costs that they can have: 2, or 4 to one above the width.
#[derive(Clone, Copy)]
pub struct Rows {
    pub width: usize,
    pub count: usize,
}

/// Where the costly rows stand.
#[derive(Clone, Copy, PartialEq, Eq)]
pub enum CostlyRows {
    First,
    Last,
    Mixed,
}

impl Rows {
    /// The greatest body of all.
    pub fn greatest_body(self) -> usize {
        (self.width + 1) * self.count
    }

    /// Costs that add up to `body`: the greatest there are, or less by up to three bytes per row,
    /// spread evenly.
    pub fn even_costs(self, random: &mut Random, body: usize) -> Vec<usize> {
        let greatest = self.width + 1;
        let mut costs = vec![greatest; self.count];
        for _ in body..self.greatest_body() {
            let number = row_above(random, &costs, greatest - 3);
            costs[number] -= 1;
        }
        costs
    }

    /// Costs that add up to `body`, as high as they can be or 2, with at most two between.
    pub fn costly_and_cheap(
        self,
        random: &mut Random,
        body: usize,
        order: CostlyRows,
    ) -> Vec<usize> {
        let mut costs = vec![2; self.count];
        let mut left = body - 2 * self.count;
        for cost in &mut costs {
            let mut more = left.min(self.width - 1);
            if left - more == 1 {
                more -= 1; // No row costs 3 bytes, so leave 2 for the next one.
            }
            *cost += more;
            left -= more;
        }
        match order {
            CostlyRows::First => {}
            CostlyRows::Last => costs.reverse(),
            CostlyRows::Mixed => shuffle(random, &mut costs),
        }
        costs
    }
}

/// The number of a row that costs more than `least`, at random.
fn row_above(random: &mut Random, costs: &[usize], least: usize) -> usize {
    loop {
        let number = random.below(costs.len());
        if costs[number] > least {
            return number;
        }
    }
}

fn shuffle(random: &mut Random, costs: &mut [usize]) {
    for index in (1..costs.len()).rev() {
        costs.swap(index, random.between(0, index));
    }
}
