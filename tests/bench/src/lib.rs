//! A plain implementation of document 01's six calls, document 02's three over marks and its longest history, and what the
//! benchmark measures.

pub mod plain;
pub mod rounds;
pub mod station;
pub mod workloads;
