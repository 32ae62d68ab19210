//! Random inputs: scenes (settings, table, today), plans and payoffs that fit them, sheets, and
//! damage to all of these.

pub mod amounts;
pub mod damage;
pub mod edges;
pub mod payoffs;
pub mod plans;
pub mod scenes;
pub mod sheets;

use crate::random::Random;

/// How large a tree may become.
#[derive(Clone, Copy, Debug)]
pub struct Budget {
    /// Nodes to be made, as far as the depth allows.
    pub nodes: usize,
    /// Levels left, this node's own among them.
    pub depth: usize,
    /// Whether all nodes to spare go to one child, so that the tree grows deep.
    pub deep: bool,
}

impl Budget {
    /// Mostly small; sometimes at and beyond the limits of 512 nodes and depth 32.
    pub fn random(random: &mut Random) -> Budget {
        let depth = 32;
        let deep = random.chance(10);
        let nodes = random.weighted(&[(60, 0), (23, 1), (8, 2), (1, 3), (4, 4), (4, 5)]);
        match nodes {
            0 => Budget::of(random.range(1, 10), depth, deep),
            1 => Budget::of(random.range(11, 40), depth, deep),
            2 => Budget::of(random.range(41, 150), depth, deep),
            3 => Budget::of(random.range(300, 513), depth, false),
            4 => Budget::of(*random.pick(&[511, 512, 512, 513, 513]), depth, false),
            _ => {
                let depth = random.range(30, 34) as usize;
                Budget::of(random.range(60, 200), depth, true)
            }
        }
    }

    fn of(nodes: i64, depth: usize, deep: bool) -> Budget {
        Budget {
            nodes: nodes as usize,
            depth,
            deep,
        }
    }

    pub fn is_leaf(self) -> bool {
        self.nodes <= 1 || self.depth <= 1
    }

    /// Whether there are so many nodes for the depth left that only an even `B` makes room.
    pub fn is_crowded(self) -> bool {
        self.nodes > 10 * self.depth
    }

    /// Budgets of the children, which need at least `least` nodes each.
    pub fn split<const N: usize>(self, random: &mut Random, least: [usize; N]) -> [Budget; N] {
        let needed: usize = least.iter().sum();
        let mut spare = (self.nodes - 1).saturating_sub(needed);
        let mut nodes = least;
        let favoured = random.below(N);
        if self.deep {
            nodes[favoured] += spare;
        } else if self.is_crowded() {
            for own in &mut nodes {
                *own += spare / N;
            }
            nodes[favoured] += spare % N;
        } else {
            // The favoured child comes last and gets what the others leave.
            for own in (1..N).map(|step| (favoured + step) % N) {
                let more = random.below(spare + 1);
                nodes[own] += more;
                spare -= more;
            }
            nodes[favoured] += spare;
        }
        nodes.map(|nodes| Budget {
            nodes,
            depth: self.depth - 1,
            deep: self.deep,
        })
    }
}

/// The months in which a node may stand, or may have waited.
#[derive(Clone, Copy, Debug)]
pub struct Roots {
    pub earliest: i64,
    pub latest: i64,
}

impl Roots {
    pub fn later(self, d: i64) -> Roots {
        Roots {
            earliest: self.earliest + d,
            latest: self.latest + d,
        }
    }

    pub fn within(self, d: i64) -> Roots {
        Roots {
            latest: self.latest + d,
            ..self
        }
    }
}
