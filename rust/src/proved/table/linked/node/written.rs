//! The pair of a node, to be written.
use super::{NODE_LIMIT, Node, NodeForm, link_of};

impl<P> Node<P> {
    /// The link, and the pair by mutable reference, if the node holds one.
    #[inline(always)]
    pub(in crate::proved::table) fn get_mut(&mut self) -> Option<(usize, &mut P)> {
        match &mut self.form {
            NodeForm::Held(high, low, pair) => Some((link_of(*high, *low), pair)),
            NodeForm::Free(_, _) => None,
        }
    }

    /// Whether the node holds a pair with a link to a further one.
    #[inline(always)]
    pub(in crate::proved::table) fn leads_on(&self) -> bool {
        self.get().is_some_and(|it| it.0 < NODE_LIMIT)
    }
}
