//! The seed tree: root is node 1, node v has the children 2v and 2v+1, leaf i is node n+i.

use crate::strings::{children, Prefix, Seed};

/// The seeds known of a tree, by node number.
pub struct Tree {
    leaves: usize,
    seeds: Vec<Option<Seed>>,
}

/// The siblings of the nodes on the way from the root to a leaf, from the root side down.
pub fn sibling_nodes(axes: usize, leaf: usize) -> Vec<usize> {
    let leaf_node = (1 << axes) + leaf;
    (0..axes).rev().map(|level| (leaf_node >> level) ^ 1).collect()
}

impl Tree {
    /// The whole tree below a root seed.
    pub fn from_root(axes: usize, prefix: &Prefix, root: &Seed) -> Tree {
        Tree::from_nodes(axes, prefix, &[(1, *root)])
    }

    /// All of a tree but the way to the hidden leaf, from the sibling seeds of an opening.
    pub fn from_siblings(axes: usize, prefix: &Prefix, hidden: usize, siblings: &[Seed]) -> Tree {
        let nodes: Vec<_> = sibling_nodes(axes, hidden).into_iter().zip(siblings.iter().copied()).collect();
        Tree::from_nodes(axes, prefix, &nodes)
    }

    fn from_nodes(axes: usize, prefix: &Prefix, nodes: &[(usize, Seed)]) -> Tree {
        let leaves = 1 << axes;
        let mut seeds = vec![None; 2 * leaves];
        for &(node, seed) in nodes {
            seeds[node] = Some(seed);
        }
        for node in 1..leaves {
            if let Some(seed) = seeds[node] {
                let (left, right) = children(prefix, node, &seed);
                seeds[2 * node] = Some(left);
                seeds[2 * node + 1] = Some(right);
            }
        }
        Tree { leaves, seeds }
    }

    /// The node seed of a leaf, unless it is the hidden one.
    pub fn leaf_seed(&self, leaf: usize) -> Option<Seed> {
        self.seeds[self.leaves + leaf]
    }

    /// The sibling seeds of a leaf, from the root side down, of a tree made from its root.
    pub fn siblings(&self, leaf: usize) -> Vec<Seed> {
        let axes = self.leaves.trailing_zeros() as usize;
        let known = |node: usize| self.seeds[node].expect("a tree made from its root has every seed");
        sibling_nodes(axes, leaf).into_iter().map(known).collect()
    }
}
