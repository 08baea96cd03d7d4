//! What the programs that offer under a lock print, and the rings that they offer to: as tr_bench has them.

use crate::plain_ring::Offered;

/// How many offers a round makes to each stream of a new session.
pub const OFFERS: u64 = 100_000;

pub fn mix(sum: u64, value: u64) -> u64 {
    sum.wrapping_mul(31).wrapping_add(value)
}

pub fn mix_answer(sum: u64, answer: Offered) -> u64 {
    match answer {
        Offered::Stored { serial, seq } => mix(mix(sum, serial), seq),
        Offered::StoredOver {
            serial,
            seq,
            gone_seq,
            gone_count,
        } => mix(mix(mix(mix(sum, serial), seq), gone_seq), gone_count),
        Offered::Discarded { serial } => mix(sum, serial),
    }
}

/// Size and count of the sub-buffers, whether the oldest gives way.
pub fn case_named(name: &str) -> Option<(usize, usize, bool)> {
    match name {
        "stored" => Some((65_536, 64, false)),
        "discarded" => Some((4_096, 4, false)),
        "overwriting" => Some((4_096, 4, true)),
        _ => None,
    }
}
