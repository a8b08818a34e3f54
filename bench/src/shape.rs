//! The shape of a table: heights, which nodes several others share and which the root does not use, which have V slacks,
//! and what the windows look at in a plan that loops. The table may be damaged: a child that it does not have counts
//! for nothing.

use crate::reference::{Plan, ALWAYS, AND, ATOM, EVENTUALLY, HEIGHT, IMPLIES, NODE_BYTES, NOT, OR, THROUGHOUT};
use crate::reference::{UNTIL, WITHIN};

pub fn len(table: &[u8]) -> usize {
    table.len() / NODE_BYTES
}

/// The numbers of a node's children, by its kind.
fn children(table: &[u8], node: usize) -> impl Iterator<Item = usize> + '_ {
    let record = &table[node * NODE_BYTES..][..NODE_BYTES];
    let end = match record[2] {
        ATOM => 3,
        AND | OR | IMPLIES | UNTIL => 5,
        _ => 4,
    };
    record[3..end].iter().map(|&child| usize::from(child)).filter(move |&child| child < len(table))
}

/// The heights in the records of a node's children.
pub fn heights_under(table: &[u8], node: usize) -> impl Iterator<Item = u8> + '_ {
    children(table, node).map(|child| table[child * NODE_BYTES + HEIGHT])
}

/// The height that follows from those: 0 for an atom, otherwise 1 more than the highest.
fn height_over(table: &[u8], node: usize) -> u8 {
    heights_under(table, node).max().map_or(0, |highest| highest.wrapping_add(1))
}

/// Writes the heights of the nodes from number `first` on.
pub fn fill_heights(table: &mut [u8], first: usize) {
    for node in first..len(table) {
        table[node * NODE_BYTES + HEIGHT] = height_over(table, node);
    }
}

/// The nodes whose height does not follow from those in their children's records.
pub fn wrong_heights(table: &[u8]) -> Vec<usize> {
    (0..len(table)).filter(|&node| table[node * NODE_BYTES + HEIGHT] != height_over(table, node)).collect()
}

/// Whether a node is a child more than once.
pub fn has_shared(table: &[u8]) -> bool {
    let mut uses = vec![0; len(table)];
    (0..len(table)).flat_map(|node| children(table, node)).for_each(|child| uses[child] += 1);
    uses.iter().any(|&uses| uses > 1)
}

/// The nodes that the root, which is the last, does not use: they are not under it.
pub fn unused(table: &[u8]) -> Vec<usize> {
    let mut used = vec![false; len(table)];
    used.last_mut().into_iter().for_each(|root| *root = true);
    for node in (0..len(table)).rev() {
        if used[node] {
            children(table, node).for_each(|child| used[child] = true);
        }
    }
    (0..len(table)).filter(|&node| !used[node]).collect()
}

/// Whether a larger figure of each node helps the root to hold, or a smaller one; of a node with uses of both sorts, as
/// its lowest user has it.
pub fn helping_root(table: &[u8]) -> Vec<bool> {
    let mut larger = vec![true; len(table)];
    for node in (0..len(table)).rev() {
        let turned = [NOT, IMPLIES].contains(&table[node * NODE_BYTES + 2]);
        for (place, child) in children(table, node).enumerate() {
            larger[child] = larger[node] ^ (turned && place == 0);
        }
    }
    larger
}

/// Whether a node has the same part on both sides.
pub fn has_same_sides(table: &[u8]) -> bool {
    let binary = |kind: u8| [AND, OR, IMPLIES, UNTIL].contains(&kind);
    table.chunks_exact(NODE_BYTES).any(|record| binary(record[2]) && record[3] == record[4])
}

/// The nodes that have V slacks, in the order of these; none unless L is below T.
pub fn with_seconds(table: &[u8], plan: Plan) -> Vec<usize> {
    let endless = |&node: &usize| [EVENTUALLY, ALWAYS, UNTIL].contains(&table[node * NODE_BYTES + 2]);
    (0..if plan.l < plan.t { len(table) } else { 0 }).filter(endless).collect()
}

/// The windows of a table, a and b.
fn windows(table: &[u8]) -> impl Iterator<Item = (usize, usize)> + '_ {
    let windowed = table.chunks_exact(NODE_BYTES).filter(|record| [WITHIN, THROUGHOUT].contains(&record[2]));
    windowed.map(|record| (usize::from(record[5]), usize::from(record[6])))
}

pub fn has_window(table: &[u8]) -> bool {
    windows(table).next().is_some()
}

/// Whether from slot T a window looks at slot L, which is not T, or beyond.
pub fn has_wrapped_window(table: &[u8], plan: Plan) -> bool {
    plan.l < plan.t && windows(table).any(|(_, b)| b > 0)
}

/// Whether from slot T it passes slot T again.
pub fn has_far_window(table: &[u8], plan: Plan) -> bool {
    plan.l < plan.t && windows(table).any(|(_, b)| b > plan.t - plan.l + 1)
}

/// Whether its slots at some slot have others between them, so that they do not stand in the order of time.
pub fn has_parted_window(table: &[u8], plan: Plan) -> bool {
    plan.l < plan.t && windows(table).any(|window| (1..=plan.t).any(|slot| parted(slots_of(window, slot, plan))))
}

/// The slots that a window looks at from a slot, a bit for each, one time after the other.
fn slots_of((a, b): (usize, usize), slot: usize, Plan { t, l, .. }: Plan) -> u64 {
    let next = |slot: &usize| Some(if *slot == t { l } else { slot + 1 });
    let times = std::iter::successors(Some(slot), next);
    times.skip(a).take(b - a + 1).fold(0, |slots, slot| slots | 1 << (slot - 1))
}

/// Whether the set bits have others between them.
fn parted(slots: u64) -> bool {
    let from_first = slots >> slots.trailing_zeros();
    from_first & from_first.wrapping_add(1) != 0
}
