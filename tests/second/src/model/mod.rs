//! The rules of the paper.

pub mod arithmetic;
mod besides;
pub mod calls;
pub mod card;
pub mod deck;
pub mod drum;
pub mod event;
pub mod machine;
pub mod making;
pub mod natural;
pub mod nearest;
pub mod operation;
pub mod order;
pub mod orders;
pub mod state;
pub mod stop;
pub mod sums;
pub mod trace;
pub mod word;

#[cfg(test)]
mod tests;
