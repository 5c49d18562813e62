//! The other contenders.

#[cfg(before)]
pub mod before;
pub mod bits;
pub mod btree;
#[cfg(peer_roaring)]
pub mod croaring;
pub mod merges;
pub mod same_change;
pub mod same_steps;
#[cfg(peer_sqlite3)]
pub mod sqlite;
