//! Plain Rust beside the library, to be compared with in speed and in answers: the reader and the checker, the planners, the writers.
pub mod classes_peer;
pub mod groups_peer;
pub mod orders_peer;
pub mod peer;
pub mod planner_peer;
pub mod writer_peer;
