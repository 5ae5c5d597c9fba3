//! The seed tree: SHAKE input 5 of document 01.

use crate::params::{FIRST_LEAF, SALT_LEN, SEED_LEN, TREE_DEPTH, TREE_NODES};
use crate::shake::shake128;

pub type Seed = [u8; SEED_LEN];

/// The seeds of the nodes, as far as they are known; the others stay zero.
/// "Root is node 0, party i is node 15+i."
pub struct SeedTree([Seed; TREE_NODES]);

impl SeedTree {
    /// The whole tree under a root seed.
    pub fn from_root(salt: &[u8; SALT_LEN], execution: usize, root: &Seed) -> Self {
        let mut tree = Self([[0; SEED_LEN]; TREE_NODES]);
        tree.expand(salt, execution, 0, root, TREE_DEPTH);
        tree
    }

    /// All but the path to the hidden party, from the sibling seeds.
    pub fn from_siblings(
        salt: &[u8; SALT_LEN],
        execution: usize,
        hidden: usize,
        seeds: &[Seed; TREE_DEPTH],
    ) -> Self {
        let mut tree = Self([[0; SEED_LEN]; TREE_NODES]);
        for (level, node) in sibling_nodes(hidden).into_iter().enumerate() {
            tree.expand(salt, execution, node, &seeds[level], TREE_DEPTH - 1 - level);
        }
        tree
    }

    /// "5: salt, e, node v, seed; gives the seeds of nodes 2v+1 and 2v+2. A
    /// subtree is expanded by expanding its two halves."
    fn expand(
        &mut self,
        salt: &[u8; SALT_LEN],
        execution: usize,
        node: usize,
        seed: &Seed,
        depth: usize,
    ) {
        self.0[node] = *seed;
        if depth == 0 {
            return;
        }
        let output: [u8; 2 * SEED_LEN] = shake128(&[
            &[5],
            salt,
            &[execution as u8],
            &(node as u32).to_le_bytes(),
            seed,
        ]);
        let (left, right) = output.split_at(SEED_LEN);
        for (child, seed) in [(2 * node + 1, left), (2 * node + 2, right)] {
            let seed = seed.try_into().expect("half of the output");
            self.expand(salt, execution, child, seed, depth - 1);
        }
    }

    /// The seed of a party.
    pub fn leaf(&self, party: usize) -> &Seed {
        &self.0[FIRST_LEAF + party]
    }

    /// "four sibling seeds from the top down"
    pub fn siblings(&self, hidden: usize) -> [Seed; TREE_DEPTH] {
        sibling_nodes(hidden).map(|node| self.0[node])
    }
}

/// The siblings of the nodes on the path to a party, from the top down.
fn sibling_nodes(party: usize) -> [usize; TREE_DEPTH] {
    let mut siblings = [0; TREE_DEPTH];
    let mut node = FIRST_LEAF + party;
    for sibling in siblings.iter_mut().rev() {
        *sibling = if node % 2 == 1 { node + 1 } else { node - 1 };
        node = (node - 1) / 2;
    }
    siblings
}

#[cfg(test)]
mod tests {
    use super::*;
    use crate::params::PARTIES;

    #[test]
    fn starred_cases_of_the_siblings() {
        assert_eq!(sibling_nodes(0), [2, 4, 8, 16]);
        assert_eq!(sibling_nodes(5), [2, 3, 10, 19]);
        assert_eq!(sibling_nodes(15), [1, 5, 13, 29]);
    }

    #[test]
    fn siblings_expand_to_all_leaves_but_the_hidden() {
        let salt = [7; SALT_LEN];
        let whole = SeedTree::from_root(&salt, 3, &[9; SEED_LEN]);
        for hidden in 0..PARTIES {
            let shown = SeedTree::from_siblings(&salt, 3, hidden, &whole.siblings(hidden));
            for party in 0..PARTIES {
                assert_eq!(shown.leaf(party) == whole.leaf(party), party != hidden);
            }
        }
    }
}
