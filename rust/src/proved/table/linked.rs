//! Slots whose further pairs lie in the nodes of one vector, which links join.

pub(in crate::proved::table) mod chain;
pub(in crate::proved::table) mod closures;
pub(in crate::proved::table) mod node;
pub(in crate::proved::table) mod pool;
pub(in crate::proved::table) mod row;
pub(in crate::proved::table) mod turn;
