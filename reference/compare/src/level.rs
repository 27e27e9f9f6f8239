//! The highest level: one and the same for the proved library, its Rust crate
//! and the independent program.

use crate::plan::{Plan, RED, T140};
use crate::random::Random;
use independent::refusal::OLDER_TOO_MANY;
use independent::LEVEL;
use stewpigeon::lent;

/// Whether the library reads past so many headers of older blocks. The type of
/// the primary behind them is wrong, so that nothing is ever written to the
/// answer, which may be of another size than the library's.
fn reads(older: usize) -> bool {
    let plan = Plan::small_red(&mut Random::new(0), older);
    let mut packet = plan.bytes();
    packet[plan.blocks() - 1] ^= 1;
    let mut answer = lent::Packet::ZERO;
    lent::read_into(0, 0, T140, RED, &packet, &mut answer) != OLDER_TOO_MANY
}

/// Says what to do where the levels differ.
pub fn check() -> Result<(), String> {
    let library = (1..100).take_while(|older| reads(*older)).count();
    let levels = [library, stewpigeon::Packet::LEVEL, LEVEL];
    if levels == [LEVEL; 3] {
        return Ok(());
    }
    let [library, rust, independent] = levels;
    Err(format!(
        "the highest levels differ: {library} in the library that is linked, {rust} in its Rust crate,\n\
         {independent} in the independent program. Set `LEVEL` in rust/stewpigeon/src/reader.rs and\n\
         in reference/independent/src/lib.rs to the library's, or link the library of that\n\
         level (STEWPIGEON_LIB_DIR names its directory), and build again"
    ))
}
