//! What the tests of the delivered calls share: the calls as `include/rolsipay.h`
//! declares them, memory to lend, what is wanted of them on any text, table and
//! state, and comparing it. With `--cfg mock` a stand-in answers the calls.

mod answers;
pub mod calls;
mod delivered;
pub mod law;
mod memory;
#[cfg(mock)]
mod mock;
pub mod places;
pub mod state;
pub mod tally;

use reference::count::{self, Count};

use tally::Tally;

pub type Part = count::Part<Tally>;

/// Runs the parts of a test, by a program's words: the first is the folder for
/// what failed; a second word `hasty` ends the test at its first failure; a third
/// names the one part that is run.
pub fn run(parts: &[Part]) -> ! {
    let tally = Tally::new(Count::new(std::env::args().skip(1)));
    count::run(tally, parts, |tally| &tally.count)
}
