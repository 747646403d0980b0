//! The promises that were cancelled and whose messages wait.

use crate::replies::{Refusal, Removed, Taken};
use std::mem::take;

/// Promises of a connection that were cancelled and whose messages are not gone. The archive reports an interval of promises,
/// and which of them it had settled before; this is to leave those out.
#[derive(Debug, Default)]
pub(crate) struct Cancelled(Promises);

impl Cancelled {
    pub(crate) fn insert(&mut self, node: Node) {
        self.0.insert(node);
    }

    /// Forgets a message that was cancelled and is gone.
    #[inline]
    pub(crate) fn removed(&mut self, removed: &Removed) {
        if removed.any && removed.settled.is_none() {
            self.forget_one();
        }
    }

    // Few messages are cancelled: apart, so that a removal is small enough to be inlined.
    #[cold]
    fn forget_one(&mut self) {
        self.0.pop_first();
    }

    /// Leaves out those of these promises that were cancelled before, and forgets them.
    #[inline]
    pub(crate) fn settled_by(&mut self, taken: Taken) -> Taken {
        if self.0.is_empty() {
            return taken;
        }
        let cancelled = self.forget_below(taken.promises.end);
        taken.without(cancelled)
    }

    #[cold]
    fn forget_below(&mut self, end: u64) -> Promises {
        let (gone, left) = take(&mut self.0).cut(end);
        self.0 = left;
        gone
    }
}

/// Promises that are cut in two without allocating. Each stands in a node with memory of its own, which is refused before
/// anything changes; the nodes are a tree, by promise from left to right and by rank from the top down.
#[derive(Clone, Debug, Default, PartialEq, Eq)]
pub(crate) struct Promises {
    top: Option<Node>,
}

/// One promise, with those before it and those after it that have a lower rank.
#[derive(Clone, Debug, PartialEq, Eq)]
pub(crate) struct Node(Box<[Fields; 1]>);

#[derive(Clone, Debug, PartialEq, Eq)]
struct Fields {
    id: u64,
    before: Promises,
    after: Promises,
}

impl Node {
    /// Memory for a promise. [`Refusal::NoMemory`] comes if the allocator refused.
    pub(crate) fn new(id: u64) -> Result<Node, Refusal> {
        let mut fields = Vec::new();
        // a `Box` of its own aborts if memory is refused
        fields.try_reserve_exact(1).map_err(|_| Refusal::NoMemory)?;
        fields.push(Fields { id, before: Promises::default(), after: Promises::default() });
        Ok(Node(fields.into_boxed_slice().try_into().expect("it has one element")))
    }

    fn fields(&self) -> &Fields {
        &self.0[0]
    }

    fn fields_mut(&mut self) -> &mut Fields {
        &mut self.0[0]
    }

    /// No two promises have one rank, and ranks look drawn by lot: so the tree is as deep as its size has digits.
    fn rank(&self) -> u64 {
        let id = self.fields().id.wrapping_add(1).wrapping_mul(0x9e37_79b9_7f4a_7c15);
        (id ^ (id >> 32)).wrapping_mul(0x9e37_79b9_7f4a_7c15)
    }
}

impl Promises {
    pub(crate) fn is_empty(&self) -> bool {
        self.top.is_none()
    }

    /// Adds a promise that is not among them.
    pub(crate) fn insert(&mut self, mut node: Node) {
        let id = node.fields().id;
        match &mut self.top {
            Some(top) if top.rank() > node.rank() => {
                let fields = top.fields_mut();
                let side = if id < fields.id { &mut fields.before } else { &mut fields.after };
                side.insert(node);
            }
            _ => {
                let (before, after) = take(self).cut(id);
                let fields = node.fields_mut();
                (fields.before, fields.after) = (before, after);
                self.top = Some(node);
            }
        }
    }

    /// Those below this promise, and the others.
    pub(crate) fn cut(self, end: u64) -> (Promises, Promises) {
        let Some(mut top) = self.top else {
            return (Promises::default(), Promises::default());
        };
        let fields = top.fields_mut();
        if fields.id < end {
            let (before, after) = take(&mut fields.after).cut(end);
            fields.after = before;
            (Promises { top: Some(top) }, after)
        } else {
            let (before, after) = take(&mut fields.before).cut(end);
            fields.before = after;
            (before, Promises { top: Some(top) })
        }
    }

    /// Takes the first off.
    pub(crate) fn pop_first(&mut self) {
        if let Some(top) = &mut self.top {
            let fields = top.fields_mut();
            if fields.before.is_empty() {
                *self = take(&mut fields.after);
            } else {
                fields.before.pop_first();
            }
        }
    }

    pub(crate) fn contains(&self, id: u64) -> bool {
        let mut here = self;
        while let Some(top) = &here.top {
            let fields = top.fields();
            if fields.id == id {
                return true;
            }
            here = if id < fields.id { &fields.before } else { &fields.after };
        }
        false
    }
}

#[cfg(test)]
mod tests {
    use super::{Node, Promises};
    use std::collections::BTreeSet;

    fn depth(promises: &Promises) -> usize {
        let Some(top) = &promises.top else { return 0 };
        1 + depth(&top.fields().before).max(depth(&top.fields().after))
    }

    fn has(promises: &Promises, wanted: &BTreeSet<u64>, most: u64) -> bool {
        (0..most).all(|id| promises.contains(id) == wanted.contains(&id)) && promises.is_empty() == wanted.is_empty()
    }

    #[test]
    fn they_are_a_set_beside_that_of_the_library() {
        let (mut promises, mut wanted) = (Promises::default(), BTreeSet::new());
        let mut dice = 1u64;
        for step in 0..2000u64 {
            dice = dice.wrapping_mul(6364136223846793005).wrapping_add(1442695040888963407);
            let id = (dice >> 33) % 300;
            match (dice >> 20) % 8 {
                0 => {
                    let rest = wanted.split_off(&id);
                    let (before, after) = promises.cut(id);
                    assert!(has(&before, &wanted, 300), "step {step}");
                    (promises, wanted) = (after, rest);
                }
                1 => {
                    promises.pop_first();
                    wanted.pop_first();
                }
                _ => {
                    if wanted.insert(id) {
                        promises.insert(Node::new(id).expect("there is memory"));
                    }
                }
            }
            assert!(has(&promises, &wanted, 300), "step {step}");
        }
    }

    #[test]
    fn a_hundred_thousand_in_a_row_are_no_deep_tree() {
        let mut promises = Promises::default();
        for id in 0..100_000 {
            promises.insert(Node::new(id).expect("there is memory"));
        }
        // 2 ln 100000 is 23, and the deepest of such trees is some twice as deep
        assert!(depth(&promises) < 80, "{}", depth(&promises));
        let (before, after) = promises.cut(50_000);
        assert!(before.contains(49_999) && !before.contains(50_000) && after.contains(50_000));
    }
}
