//! Lent tables: how long each must be, and what a call leaves in those that it writes. One function to each rule, as in
//! `machine.rs`, so that `wrong_calls.rs` can break one and leave the rest.

use crate::ROOM;

pub const HEAD_ENTRIES: usize = 10;
pub const NODE_ENTRIES: usize = 3;
pub const NODES_MOST: usize = 64;
pub const PROGRAM_ENTRIES: usize = 5;
pub const SECTION_ENTRIES: usize = 6 * 1024;

pub trait Lending {
    /// "a lent table is too short (64 nodes; 1,024 instructions a section)"; a sheet's head has ten entries
    fn sheet_fits(head: &[u64], nodes: &[u64]) -> bool {
        head.len() >= HEAD_ENTRIES && nodes.len() >= NODE_ENTRIES * NODES_MOST
    }

    fn program_fits(program: &[u64], sections: &[&mut [u32]; 3]) -> bool {
        program.len() >= PROGRAM_ENTRIES && sections.iter().all(|section| Self::section_fits(section.len()))
    }

    fn section_fits(entries: usize) -> bool {
        entries >= SECTION_ENTRIES
    }

    /// "On done the unused entries of output tables are zero."
    fn fill<T: Copy + Default>(table: &mut [T], contents: &[T]) {
        for (k, entry) in table.iter_mut().enumerate() {
            *entry = contents.get(k).copied().unwrap_or_default();
        }
    }

    /// "ROOM leaves tables unchanged; 2 to 11 leave the lent output tables all zero."
    fn refuse<T: Copy + Default>(table: &mut [T], number: u64) {
        if number != ROOM {
            table.fill(T::default());
        }
    }
}
