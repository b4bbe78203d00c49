//! What the tests share: the proved library as Rust functions, yard sheets, tables, notices and packets to feed it, and a naive solver, cabin,
//! judge and posting to compare it with.
pub mod both;
pub mod cabin;
pub mod counts;
pub mod hubs;
pub mod judge;
pub mod naive;
pub mod notices;
pub mod packets;
pub mod posting;
pub mod proved;
pub mod random;
pub mod sheets;
pub mod tables;
pub mod working;
pub mod worst;
