//! The ancestors of a block that the application has not taken.

use simplex_view_state::{Digest, View};
use simplex_wire::Block;
use std::collections::VecDeque;
use std::sync::Arc;

/// The blocks after the last final one that the application took ([`last`](super::Application::last)), up to a block's parent: the oldest
/// first, each the parent of the next. There is none where that last block is the parent.
#[derive(Clone, Debug, Default, PartialEq, Eq)]
pub struct Ancestors(VecDeque<Arc<Block>>);

/// The blocks from a block's parent down to a final block.
#[derive(Clone, Debug, PartialEq, Eq)]
pub enum Branch {
    /// All blocks between.
    Whole(Ancestors),
    /// This one is not here.
    Missing(View, Digest),
    /// The branch does not lead to the final block.
    Broken,
}

impl Ancestors {
    /// The blocks, the oldest first.
    pub fn iter(&self) -> impl DoubleEndedIterator<Item = &Block> + ExactSizeIterator {
        self.0.iter().map(|it| &**it)
    }

    /// The parent; `None` where it is the last final block that the application took.
    pub fn parent(&self) -> Option<&Block> {
        self.iter().next_back()
    }

    /// How many blocks they are.
    pub fn len(&self) -> usize {
        self.0.len()
    }

    /// Returns whether the parent is the last final block that the application took.
    pub fn is_empty(&self) -> bool {
        self.0.is_empty()
    }

    /// Collects those above a final block, up to a parent.
    pub(crate) fn collect<'a>(last: (View, Digest), parent: (View, Digest), block: impl Fn(&Digest) -> Option<&'a Arc<Block>>) -> Branch {
        let (mut found, mut next) = (VecDeque::new(), parent);
        while next != last {
            if next.0 <= last.0 {
                return Branch::Broken;
            }
            match block(&next.1) {
                Some(it) if it.view != next.0 || it.parent.0 >= it.view => return Branch::Broken,
                Some(it) => {
                    found.push_front(it.clone());
                    next = it.parent;
                }
                None => return Branch::Missing(next.0, next.1),
            }
        }
        Branch::Whole(Ancestors(found))
    }

    /// These, up to a parent, with final blocks in front of them, and without those up to the last one that the application took. `None`
    /// where that one is not on the branch.
    pub(super) fn after<'a>(
        &'a self,
        last: (View, Digest),
        parent: (View, Digest),
        finals: impl Iterator<Item = &'a Arc<Block>>,
    ) -> Option<Ancestors> {
        let from = self.0.front().map_or(parent, |it| it.parent);
        let all = finals.take_while(|it| it.view <= from.0).chain(&self.0);
        let pending = Ancestors(all.filter(|it| it.view > last.0).cloned().collect());
        pending.link(last, parent).then_some(pending)
    }

    /// Returns whether each names the one before as its parent, from a block on up to another one.
    fn link(&self, mut from: (View, Digest), upto: (View, Digest)) -> bool {
        let are_linked = self.iter().all(|it| {
            let parent = std::mem::replace(&mut from, (it.view, it.payload()));
            it.parent == parent
        });
        are_linked && from == upto
    }
}

/// For tests of an application: blocks, the oldest first.
impl FromIterator<Block> for Ancestors {
    fn from_iter<T: IntoIterator<Item = Block>>(blocks: T) -> Ancestors {
        Ancestors(blocks.into_iter().map(Arc::new).collect())
    }
}

#[cfg(test)]
mod tests {
    use super::*;
    use simplex_view_state::{Context, Epoch, Participant, Round};

    /// Blocks on one another, from a block on.
    fn chain(mut parent: (View, Digest), views: &[u64]) -> Vec<Arc<Block>> {
        let blocks = views.iter().map(|view| {
            let round = Round {
                epoch: Epoch::new(1),
                view: View::new(*view),
            };
            let context = Context {
                round,
                leader: Participant::new(0),
                parent: parent.0,
                parent_payload: parent.1,
            };
            let block = Block::new(&context, &[]);
            parent = name(&block);
            Arc::new(block)
        });
        blocks.collect()
    }

    fn name(block: &Block) -> (View, Digest) {
        (block.view, block.payload())
    }

    fn collect(last: &Block, parent: (View, Digest), stored: &[Arc<Block>]) -> Branch {
        Ancestors::collect(name(last), parent, |payload| stored.iter().find(|it| it.payload() == *payload))
    }

    fn views(ancestors: &Ancestors) -> Vec<u64> {
        ancestors.iter().map(|it| it.view.get()).collect()
    }

    #[test]
    fn the_blocks_between_the_last_final_one_and_the_parent_are_collected_oldest_first() {
        let all = chain((View::GENESIS, Digest::default()), &[1, 2, 5, 6]);
        let Branch::Whole(found) = collect(&all[0], name(&all[3]), &all) else {
            panic!("all are here");
        };
        assert_eq!((views(&found), found.len()), (vec![2, 5, 6], 3));
        assert_eq!(found.parent().map(name), Some(name(&all[3])));
        assert_eq!(collect(&all[3], name(&all[3]), &[]), Branch::Whole(Ancestors::default()));
    }

    #[test]
    fn the_highest_block_that_is_missing_is_named() {
        let all = chain((View::GENESIS, Digest::default()), &[1, 2, 5, 6]);
        let (view, payload) = name(&all[2]);
        assert_eq!(collect(&all[0], name(&all[3]), &all[3..]), Branch::Missing(view, payload));
        assert_eq!(collect(&all[0], name(&all[2]), &all[..2]), Branch::Missing(view, payload));
    }

    #[test]
    fn a_branch_that_leaves_out_the_last_final_block_is_broken() {
        let all = chain((View::GENESIS, Digest::default()), &[1, 2, 5, 6]);
        let forked = chain(name(&all[0]), &[3, 4, 7]);
        let both = [&all[..], &forked].concat();
        assert_eq!(collect(&all[1], name(&forked[2]), &both), Branch::Broken, "its parent is below");
        assert_eq!(collect(&all[1], name(&all[0]), &both), Branch::Broken);
        assert_eq!(collect(&all[1], (View::new(2), Digest::default()), &both), Branch::Broken);
        assert_eq!(
            collect(&all[1], (View::new(9), all[2].payload()), &both),
            Branch::Broken,
            "of another view"
        );
    }

    #[test]
    fn final_blocks_that_wait_are_in_front_and_those_that_are_taken_are_left_out() {
        let all = chain((View::GENESIS, Digest::default()), &[1, 2, 5, 6, 7, 8]);
        let above = Ancestors(all[3..5].iter().cloned().collect());
        let after = |last: usize, finals: &[Arc<Block>]| above.after(name(&all[last]), name(&all[4]), finals.iter()).map(|it| views(&it));
        assert_eq!(after(0, &all[1..3]), Some(vec![2, 5, 6, 7]));
        assert_eq!(after(2, &[]), Some(vec![6, 7]));
        assert_eq!(after(3, &[]), Some(vec![7]), "it took one of them since");
        assert_eq!(after(0, &all[1..6]), Some(vec![2, 5, 6, 7]), "some became final since");
        assert_eq!(after(0, &all[2..3]), None, "one is left out");
        assert_eq!(after(5, &[]), None, "it has passed the parent");
        let none = Ancestors::default();
        assert_eq!(
            none.after(name(&all[0]), name(&all[2]), all[1..].iter()).map(|it| views(&it)),
            Some(vec![2, 5])
        );
    }
}
