//! One chain, step by step.

mod common;

use common::{Block, GENESIS, certificate, chain, chain_behind, proposal};
use simplex_chain::{Delivery, Entry, FinalChain, Fork};
use simplex_view_state::{Digest, View};
use std::collections::HashMap;

fn heights(entries: &[Entry<Block>]) -> Vec<(u64, u64, bool)> {
    let of = |it: &Entry<Block>| (it.height, it.block.view.get(), it.certificate.is_some());
    entries.iter().map(of).collect()
}

fn store_of(blocks: &[Block]) -> HashMap<Digest, Block> {
    blocks.iter().map(|it| (it.digest, it.clone())).collect()
}

#[test]
fn blocks_are_taken_in_order_up_to_the_one_that_is_final() {
    let made = chain(&[1, 3, 4, 9]);
    let (store, mut it) = (store_of(&made), FinalChain::new(GENESIS));
    it.finalize(&proposal(&made[2]), Some(certificate(&made[2])), &store)
        .expect("no fork");
    assert_eq!(heights(&it.take(&store)), [(1, 1, false), (2, 3, false), (3, 4, true)]);
    it.finalize(&proposal(&made[3]), None, &store).expect("no fork");
    assert_eq!(heights(&it.take(&store)), [(4, 9, false)]);
    assert_eq!((it.take(&store).len(), it.hole()), (0, None));
}

#[test]
fn a_hole_is_named_and_filled_by_a_block_or_by_ranges_in_any_order() {
    let made = chain(&[1, 2, 3, 4, 5, 6, 7]);
    let (mut store, mut it) = (store_of(&made[5..]), FinalChain::new(GENESIS));
    it.finalize(&proposal(&made[6]), None, &store).expect("no fork");
    assert_eq!((it.hole(), it.take(&store).len()), (Some((made[4].view, made[4].digest)), 0));
    store.insert(made[4].digest, made[4].clone());
    it.arrived(&made[4], &store).expect("no fork");
    assert_eq!(it.hole(), Some((made[3].view, made[3].digest)));
    let range = |blocks: &[usize]| blocks.iter().map(|at| made[*at].clone()).collect::<Vec<_>>();
    it.add(certificate(&made[3]), range(&[3, 2]), &store).expect("no fork");
    assert_eq!((it.hole(), it.fetched_bytes()), (Some((made[1].view, made[1].digest)), 200));
    it.add(certificate(&made[2]), range(&[2, 1, 0]), &store).expect("no fork");
    let views: Vec<u64> = heights(&it.take(&store)).iter().map(|it| it.1).collect();
    assert_eq!(views, [1, 2, 3, 4, 5, 6, 7]);
    assert_eq!((it.hole(), it.fetched_bytes(), it.tail().height), (None, 0, 7));
}

/// A host that lags and has no more room drops final blocks that were walked: they wait for those below them, and peers have them.
#[test]
fn a_block_that_the_store_has_forgotten_meanwhile_is_missing_again() {
    let made = chain(&[1, 2, 3, 4, 5]);
    let (mut store, mut it) = (store_of(&made[1..4]), FinalChain::new(GENESIS));
    it.finalize(&proposal(&made[3]), None, &store).expect("no fork");
    assert_eq!(it.hole(), Some((made[0].view, made[0].digest)));
    store.retain(|_, block| block.view.get() == 2);
    let mut views = Vec::new();
    for (got, lacking) in [(0, Some(2)), (2, Some(3)), (3, None)] {
        it.add(certificate(&made[got]), vec![made[got].clone()], &store).expect("no fork");
        views.extend(heights(&it.take(&store)).iter().map(|it| it.1));
        assert_eq!(it.hole(), lacking.map(|at: usize| (made[at].view, made[at].digest)));
    }
    it.add(certificate(&made[4]), vec![made[4].clone()], &store).expect("no fork");
    views.extend(heights(&it.take(&store)).iter().map(|it| it.1));
    assert_eq!((views, it.hole()), (vec![1, 2, 3, 4, 5], None));
}

#[test]
fn two_final_blocks_on_one_parent_are_a_fork() {
    let made = chain(&[1, 2, 4]);
    let other = chain_behind((made[0].view, made[0].digest), &[3], 2);
    let store = store_of(&[&made[..], &other].concat());
    // Where both are ahead, and where one of them was taken.
    let (mut ahead, mut behind) = (FinalChain::new(GENESIS), FinalChain::new(GENESIS));
    ahead.finalize(&proposal(&made[2]), None, &store).expect("no fork");
    let said = ahead.finalize(&proposal(&other[0]), None, &store).expect_err("a fork");
    assert!(said.to_string().contains("two final blocks are on the block of view 1"), "{said}");
    behind.finalize(&proposal(&made[1]), None, &store).expect("no fork");
    assert_eq!(behind.take(&store).len(), 2);
    let said = behind.finalize(&proposal(&other[0]), None, &store).expect_err("a fork");
    assert!(said.to_string().contains("none of view 2"), "{said}");
}

/// A range that was not verified may have blocks that no final block links to.
#[test]
fn fetched_blocks_that_are_not_of_the_chain_are_dropped_with_their_views() {
    let made = chain(&[1, 2, 3, 6]);
    let stray = chain_behind((made[0].view, made[0].digest), &[4], 2).remove(0);
    let (store, mut it) = (store_of(&made[..1]), FinalChain::new(GENESIS));
    let range = vec![made[2].clone(), made[1].clone(), stray];
    it.add(certificate(&made[2]), range, &store).expect("no fork");
    assert_eq!((it.take(&store).len(), it.fetched_bytes()), (3, 100));
    it.add(certificate(&made[3]), vec![made[3].clone()], &store).expect("no fork");
    assert_eq!((it.take(&store).len(), it.fetched_bytes()), (1, 0));
}

#[test]
fn a_delivery_returns_each_final_block_once_and_forgets_those_below() {
    let made = chain(&[1, 3, 4, 9]);
    let mut it = Delivery::new(GENESIS);
    let views = |blocks: Result<Vec<Block>, Fork>| blocks.expect("no fork").iter().map(|it| it.view.get()).collect::<Vec<_>>();
    assert_eq!(views(it.insert(made[0].clone())), [0; 0], "it is not final yet");
    assert_eq!(views(it.finalize(&proposal(&made[2]))), [0; 0], "its ancestors are missing");
    assert_eq!(views(it.insert(made[2].clone())), [0; 0], "another one is missing");
    assert_eq!(it.hole(), Some((made[1].view, made[1].digest)));
    assert_eq!(views(it.insert(made[1].clone())), [1, 3, 4]);
    assert_eq!(views(it.insert(made[1].clone())), [0; 0], "it comes once");
    assert_eq!(views(it.insert(made[3].clone())), [0; 0]);
    it.forget(View::new(10));
    let left: Vec<bool> = made.iter().map(|block| it.get(&block.digest).is_some()).collect();
    assert_eq!(left, [false, false, false, true]);
    assert_eq!(views(it.finalize(&proposal(&made[3]))), [9]);
}
