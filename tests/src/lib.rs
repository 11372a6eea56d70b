//! The library's C interface, called from outside, and an implementation of the requirements that
//! shares nothing with it. The tests compare the two: `cargo test --release`, and with
//! `-- --nocapture` they say how much they have compared. `cargo bench` compares their speed.

pub mod acceptance;
pub mod afa;
pub mod checks;
pub mod compare;
pub mod damage;
pub mod demand;
pub mod fault;
pub mod generate;
pub mod guarded;
pub mod hitting;
pub mod image;
pub mod machine;
pub mod measure;
pub mod one_step;
pub mod print;
pub mod random;
pub mod rearrange;
pub mod record;
pub mod search;
pub mod stops;
pub mod tables;
pub mod text;
pub mod walk;
pub mod why;
