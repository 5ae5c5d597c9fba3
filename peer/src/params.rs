//! The numbers of document 01.

/// "with 16 parties, 41 executions, lift factor 4, m1 = 10 and m2 = 20"
pub const PARTIES: usize = 16;
pub const EXECUTIONS: usize = 41;
pub const M1: usize = 10;
pub const M2: usize = 20;

/// S-boxes 0 to 199: S-box l has j = l modulo m1 and k = l divided by m1.
pub const SBOXES: usize = M1 * M2;

/// S_j and T_j have degree at most 20 and are fixed by their values at 0 to 20.
pub const ST_POINTS: usize = M2 + 1;

/// P has degree at most 40 and is fixed by its values at 0 to 40.
pub const P_POINTS: usize = 2 * M2 + 1;

/// "at 20 to 40 they are tape shares with product offsets"
pub const PRODUCT_OFFSETS: usize = M2 + 1;

pub const BLOCK_LEN: usize = 16;
pub const PUBLIC_KEY_LEN: usize = 2 * BLOCK_LEN;
pub const SEED_LEN: usize = 16;
pub const SALT_LEN: usize = 32;
pub const HASH_LEN: usize = 32;
pub const MAX_MESSAGE_LEN: usize = 32_768;
pub const FIRST_CHALLENGE_LEN: usize = 4 * M1;

/// "The root seeds aren't 656 bytes (sealing)": one seed per execution.
pub const ROOT_SEEDS_LEN: usize = EXECUTIONS * SEED_LEN;

/// "a 380-byte tape"
pub const TAPE_LEN: usize = BLOCK_LEN + SBOXES + 2 * 4 * M1 + 4 * PRODUCT_OFFSETS;

/// "Root is node 0, party i is node 15+i": 31 nodes, the path to a leaf has four siblings.
pub const TREE_DEPTH: usize = 4;
pub const TREE_NODES: usize = 2 * PARTIES - 1;
pub const FIRST_LEAF: usize = PARTIES - 1;

/// c, the ten a_j and the ten b_j, four bytes each.
pub const CHECK_LEN: usize = 4 * (1 + 2 * M1);

/// "41 frames of 480"
pub const HEAD_LEN: usize = SALT_LEN + 2 * HASH_LEN;
pub const FRAME_LEN: usize =
    TREE_DEPTH * SEED_LEN + HASH_LEN + BLOCK_LEN + SBOXES + 4 * PRODUCT_OFFSETS + CHECK_LEN;

/// "A seal is 19,776 bytes"
pub const SIGNATURE_LEN: usize = HEAD_LEN + EXECUTIONS * FRAME_LEN;

/// "An opening is 2,554 bytes"
pub const OPENING_LEN: usize = SALT_LEN
    + 1
    + PARTIES * (HASH_LEN + BLOCK_LEN)
    + BLOCK_LEN
    + SBOXES
    + FIRST_CHALLENGE_LEN
    + 4 * PRODUCT_OFFSETS
    + 4
    + PARTIES * CHECK_LEN
    + 1
    + TREE_DEPTH * SEED_LEN;

/// "The work slice (all calls but public keys) is under 65,536 bytes."
pub const WORK_LEN: usize = 65_536;

#[cfg(test)]
mod tests {
    use super::*;

    #[test]
    fn the_lengths_are_those_of_the_document() {
        assert_eq!(SBOXES, 200);
        assert_eq!(ROOT_SEEDS_LEN, 656);
        assert_eq!(TAPE_LEN, 380);
        assert_eq!(FRAME_LEN, 480);
        assert_eq!(SIGNATURE_LEN, 19_776);
        assert_eq!(OPENING_LEN, 2_554);
        assert_eq!(1 << TREE_DEPTH, PARTIES);
    }
}
