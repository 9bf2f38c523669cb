//! Roots alone (W-206): all leading parts where a root turns, and many more.

mod cases;
mod judge;
mod law;
mod near;
mod part;
mod seen;
mod turns;
#[cfg(test)]
mod wrong;

use super::write_all;

pub use judge::judge;

pub fn write(seed: u64, count: u64, path: &str) {
    write_all((0..count).map(|index| cases::case(seed, index)), path);
}
