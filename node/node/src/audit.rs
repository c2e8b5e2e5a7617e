//! The audit after a run: chains that disagree, and votes of one member that contradict each other.

use crate::ledger::Link;
use crate::trace::Line;
use std::collections::BTreeMap;

/// Where chains disagree: two blocks in one place. All begin at genesis, or at a floor further on.
pub fn disagreements(chains: &[Vec<Link>]) -> Vec<String> {
    let mut found = Vec::new();
    let mut next_of: BTreeMap<&str, (&Link, usize)> = BTreeMap::new();
    for (node, chain) in chains.iter().enumerate() {
        for (link, next) in chain.iter().zip(chain.iter().skip(1)) {
            let (other, first) = *next_of.entry(&link.payload).or_insert((next, node));
            if (other.view, &other.payload) != (next.view, &next.payload) {
                found.push(format!(
                    "behind view {} node {first} has view {}, node {node} has view {}",
                    link.view, other.view, next.view
                ));
            }
        }
    }
    let mut in_view: BTreeMap<u64, &str> = BTreeMap::new();
    for (node, link) in chains
        .iter()
        .enumerate()
        .flat_map(|(node, chain)| chain.iter().map(move |link| (node, link)))
    {
        if *in_view.entry(link.view).or_insert(&link.payload) != link.payload {
            found.push(format!("node {node} has another block in view {}", link.view));
        }
    }
    found
}

/// Votes of one member that no honest member signs: for two proposals in one view, to nullify a view and to finalize it, or to nullify one
/// after a vote to finalize a later one of its term. The other way round a finalization may have come between.
pub fn contradictions<'a>(votes: impl Iterator<Item = &'a Line>, term_length: u64) -> Vec<String> {
    let mut found = Vec::new();
    let mut proposals: BTreeMap<(u32, char, u64), &str> = BTreeMap::new();
    let mut terms: BTreeMap<(u32, u64), FirstSeen> = BTreeMap::new();
    for vote in votes {
        let is_the_same =
            vote.kind == 'x' || *proposals.entry((vote.signer, vote.kind, vote.view)).or_insert(&vote.proposal) == vote.proposal;
        if !is_the_same {
            found.push(format!(
                "member {} signed two votes ({}) in view {}",
                vote.signer, vote.kind, vote.view
            ));
        }
        let term = (vote.signer, vote.view.saturating_sub(1) / term_length);
        let seen = terms.entry(term).or_default().entry((vote.kind, vote.view)).or_insert(vote.seen_us);
        *seen = vote.seen_us.min(*seen);
    }
    found.extend(terms.iter().flat_map(|((signer, _), seen)| misordered(*signer, seen)));
    found.sort();
    found.dedup();
    found
}

/// When a member's votes of a term were first seen, by kind and view.
type FirstSeen = BTreeMap<(char, u64), u64>;

/// Votes of a member to nullify a view of a term, and to finalize it, or a later one before.
fn misordered(signer: u32, seen: &FirstSeen) -> Vec<String> {
    let of = |kind| seen.range((kind, 0)..=(kind, u64::MAX)).map(|((_, view), at)| (*view, *at));
    of('x')
        .flat_map(|nullified| of('f').map(move |finalized| (nullified, finalized)))
        .filter(|(nullified, finalized)| nullified.0 == finalized.0 || nullified.0 < finalized.0 && finalized.1 < nullified.1)
        .map(|(nullified, finalized)| {
            format!(
                "member {signer} signed to nullify view {} and to finalize view {}",
                nullified.0, finalized.0
            )
        })
        .collect()
}

/// The value below which this share of sorted values lies.
pub fn quantile(sorted: &[u64], share: f64) -> u64 {
    let place = (sorted.len() as f64 * share) as usize;
    sorted.get(place.min(sorted.len().saturating_sub(1))).copied().unwrap_or(0)
}

#[cfg(test)]
mod tests {
    use super::*;

    fn vote(signer: u32, kind: char, view: u64, proposal: &str) -> Line {
        Line {
            signer,
            kind,
            view,
            proposal: proposal.to_owned(),
            seen_us: 0,
        }
    }

    fn link(view: u64, payload: &str) -> Link {
        Link {
            view,
            payload: payload.to_owned(),
            taken_us: 0,
            latency_us: 0,
        }
    }

    #[test]
    fn votes_for_two_proposals_contradict() {
        let votes = [
            vote(0, 'n', 3, "2 a"),
            vote(1, 'n', 3, "2 b"),
            vote(0, 'f', 3, "2 a"),
            vote(0, 'n', 3, "2 a"),
        ];
        assert!(contradictions(votes.iter(), 1).is_empty());
        let other = vote(0, 'n', 3, "2 b");
        assert_eq!(contradictions(votes.iter().chain([&other]), 1).len(), 1);
    }

    #[test]
    fn a_vote_to_nullify_contradicts_one_to_finalize_its_view_or_a_later_one_before() {
        let at = |seen_us, it: Line| Line { seen_us, ..it };
        let votes = [
            at(2, vote(0, 'x', 5, "-")),
            at(1, vote(0, 'f', 4, "3 a")),
            at(1, vote(0, 'f', 9, "8 a")),
            at(1, vote(1, 'f', 5, "4 a")),
            at(3, vote(0, 'f', 6, "4 a")),
            at(4, vote(0, 'x', 5, "-")),
        ];
        assert!(contradictions(votes.iter(), 4).is_empty());
        let before = at(1, vote(0, 'f', 7, "6 a"));
        assert_eq!(contradictions(votes.iter().chain([&before]), 4).len(), 1);
        assert!(contradictions(votes.iter().chain([&before]), 1).is_empty());
        let same = at(3, vote(0, 'f', 5, "4 a"));
        assert_eq!(contradictions(votes.iter().chain([&same]), 4).len(), 1);
    }

    #[test]
    fn chains_disagree_where_one_has_another_block() {
        let chain = vec![link(1, "a"), link(2, "b"), link(4, "c")];
        assert!(disagreements(&[chain.clone(), chain[1..].to_vec(), chain[..2].to_vec()]).is_empty());
        assert_eq!(
            disagreements(&[chain.clone(), vec![link(1, "a"), link(2, "b"), link(4, "d")]]).len(),
            2
        );
        assert_eq!(disagreements(&[chain, vec![link(1, "a"), link(4, "c")]]).len(), 1);
    }
}
