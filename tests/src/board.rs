//! The library's functions, as C sees them, behind safe ones. `header.rs` holds these declarations to the Rattle source, from which
//! the compiler makes a pointer and a length of each slice. `build.rs` says which functions the library has; the place of one that
//! it has not is taken by the independent one, and `LINKED` does not name it.

use crate::calls::{Call, Calls, INDEPENDENT};

pub const LINKED: &[Call] = &[
    #[cfg(linked = "read")]
    Call::Read,
    #[cfg(linked = "check")]
    Call::Check,
    #[cfg(linked = "offset_check")]
    Call::OffsetCheck,
    #[cfg(linked = "plain")]
    Call::Plain,
    #[cfg(linked = "place")]
    Call::Place,
    #[cfg(linked = "translate")]
    Call::Translate,
    #[cfg(linked = "plan")]
    Call::Plan,
    #[cfg(linked = "run")]
    Call::Run,
];

const LIBRARY: Calls = Calls {
    #[cfg(linked = "read")]
    read: read::call,
    #[cfg(linked = "check")]
    check: check::call,
    #[cfg(linked = "offset_check")]
    offset_check: offset_check::call,
    #[cfg(linked = "plain")]
    plain: plain::call,
    #[cfg(linked = "place")]
    place: place::call,
    #[cfg(linked = "translate")]
    translate: translate::call,
    #[cfg(linked = "plan")]
    plan: plan::call,
    #[cfg(linked = "run")]
    run: run::call,
    ..INDEPENDENT
};

/// The library's calls, if this was built with the library there.
pub fn library() -> Option<Calls> {
    (!LINKED.is_empty()).then_some(LIBRARY)
}

/// An answer comes as number + 256 * place + 65536 * steps.
#[cfg(linked)]
fn unpacked(packed: u64) -> crate::Answer {
    crate::Answer { number: packed % 256, place: packed / 256 % 256, steps: packed / 65536 }
}

// SAFETY, for every call below: each pointer is followed by the length of the slice it comes from, the slices live through the
// call, and those that are written overlap none of the others.

#[cfg(linked = "read")]
mod read {
    use super::unpacked;
    use crate::Answer;

    extern "C" {
        fn sinkerjaw_read(
            text: *const u8,
            text_len: usize,
            head: *mut u64,
            head_len: usize,
            nodes: *mut u64,
            nodes_len: usize,
        ) -> u64;
    }

    pub fn call(text: &[u8], head: &mut [u64], nodes: &mut [u64]) -> Answer {
        // SAFETY: as above
        unpacked(unsafe {
            sinkerjaw_read(text.as_ptr(), text.len(), head.as_mut_ptr(), head.len(), nodes.as_mut_ptr(), nodes.len())
        })
    }
}

#[cfg(linked = "check")]
mod check {
    use super::unpacked;
    use crate::Answer;

    extern "C" {
        fn sinkerjaw_check(head: *const u64, head_len: usize, nodes: *const u64, nodes_len: usize) -> u64;
    }

    pub fn call(head: &[u64], nodes: &[u64]) -> Answer {
        // SAFETY: as above
        unpacked(unsafe { sinkerjaw_check(head.as_ptr(), head.len(), nodes.as_ptr(), nodes.len()) })
    }
}

#[cfg(linked = "offset_check")]
mod offset_check {
    use super::unpacked;
    use crate::Answer;

    extern "C" {
        fn sinkerjaw_offset_check(head: *const u64, head_len: usize, nodes: *const u64, nodes_len: usize) -> u64;
    }

    pub fn call(head: &[u64], nodes: &[u64]) -> Answer {
        // SAFETY: as above
        unpacked(unsafe { sinkerjaw_offset_check(head.as_ptr(), head.len(), nodes.as_ptr(), nodes.len()) })
    }
}

#[cfg(linked = "plain")]
mod plain {
    use super::unpacked;
    use crate::Answer;

    extern "C" {
        fn sinkerjaw_plain(
            head: *const u64,
            head_len: usize,
            nodes: *const u64,
            nodes_len: usize,
            work: *mut u8,
            work_len: usize,
            table: *const u8,
            table_len: usize,
        ) -> u64;
    }

    pub fn call(head: &[u64], nodes: &[u64], work: &mut [u8], table: &[u8]) -> Answer {
        // SAFETY: as above
        unpacked(unsafe {
            sinkerjaw_plain(
                head.as_ptr(),
                head.len(),
                nodes.as_ptr(),
                nodes.len(),
                work.as_mut_ptr(),
                work.len(),
                table.as_ptr(),
                table.len(),
            )
        })
    }
}

#[cfg(linked = "place")]
mod place {
    use super::unpacked;
    use crate::Answer;

    extern "C" {
        fn sinkerjaw_place(
            rule: u64,
            head: *const u64,
            head_len: usize,
            nodes: *const u64,
            nodes_len: usize,
            placed_head: *mut u64,
            placed_head_len: usize,
            placed_nodes: *mut u64,
            placed_nodes_len: usize,
        ) -> u64;
    }

    pub fn call(rule: u64, head: &[u64], nodes: &[u64], placed_head: &mut [u64], placed_nodes: &mut [u64]) -> Answer {
        // SAFETY: as above
        unpacked(unsafe {
            sinkerjaw_place(
                rule,
                head.as_ptr(),
                head.len(),
                nodes.as_ptr(),
                nodes.len(),
                placed_head.as_mut_ptr(),
                placed_head.len(),
                placed_nodes.as_mut_ptr(),
                placed_nodes.len(),
            )
        })
    }
}

#[cfg(linked = "translate")]
mod translate {
    use super::unpacked;
    use crate::Answer;

    extern "C" {
        fn sinkerjaw_translate(
            head: *const u64,
            head_len: usize,
            nodes: *const u64,
            nodes_len: usize,
            work_len: u64,
            table_len: u64,
            program: *mut u64,
            program_len: usize,
            prologue: *mut u32,
            prologue_len: usize,
            body: *mut u32,
            body_len: usize,
            epilogue: *mut u32,
            epilogue_len: usize,
        ) -> u64;
    }

    pub fn call(head: &[u64], nodes: &[u64], lengths: [u64; 2], program: &mut [u64], sections: [&mut [u32]; 3]) -> Answer {
        let [work_len, table_len] = lengths;
        let [prologue, body, epilogue] = sections;
        // SAFETY: as above
        unpacked(unsafe {
            sinkerjaw_translate(
                head.as_ptr(),
                head.len(),
                nodes.as_ptr(),
                nodes.len(),
                work_len,
                table_len,
                program.as_mut_ptr(),
                program.len(),
                prologue.as_mut_ptr(),
                prologue.len(),
                body.as_mut_ptr(),
                body.len(),
                epilogue.as_mut_ptr(),
                epilogue.len(),
            )
        })
    }
}

#[cfg(linked = "plan")]
mod plan {
    use super::unpacked;
    use crate::Answer;

    extern "C" {
        fn sinkerjaw_plan(
            rule: u64,
            head: *const u64,
            head_len: usize,
            nodes: *const u64,
            nodes_len: usize,
            work_len: u64,
            table_len: u64,
            program: *mut u64,
            program_len: usize,
            prologue: *mut u32,
            prologue_len: usize,
            body: *mut u32,
            body_len: usize,
            epilogue: *mut u32,
            epilogue_len: usize,
        ) -> u64;
    }

    pub fn call(
        rule: u64,
        head: &[u64],
        nodes: &[u64],
        lengths: [u64; 2],
        program: &mut [u64],
        sections: [&mut [u32]; 3],
    ) -> Answer {
        let [work_len, table_len] = lengths;
        let [prologue, body, epilogue] = sections;
        // SAFETY: as above
        unpacked(unsafe {
            sinkerjaw_plan(
                rule,
                head.as_ptr(),
                head.len(),
                nodes.as_ptr(),
                nodes.len(),
                work_len,
                table_len,
                program.as_mut_ptr(),
                program.len(),
                prologue.as_mut_ptr(),
                prologue.len(),
                body.as_mut_ptr(),
                body.len(),
                epilogue.as_mut_ptr(),
                epilogue.len(),
            )
        })
    }
}

#[cfg(linked = "run")]
mod run {
    use super::unpacked;
    use crate::{Answer, Head};

    extern "C" {
        fn sinkerjaw_run(
            d: u64,
            f: u64,
            prologue: *const u32,
            prologue_len: usize,
            prologue_rows: u64,
            body: *const u32,
            body_len: usize,
            body_rows: u64,
            epilogue: *const u32,
            epilogue_len: usize,
            epilogue_rows: u64,
            work: *mut u8,
            work_len: usize,
            table: *const u8,
            table_len: usize,
            budget: u64,
        ) -> u64;
    }

    pub fn call(
        head: &Head,
        prologue: &[u32],
        body: &[u32],
        epilogue: &[u32],
        work: &mut [u8],
        table: &[u8],
        budget: u64,
    ) -> Answer {
        // SAFETY: as above
        unpacked(unsafe {
            sinkerjaw_run(
                head.d,
                head.f,
                prologue.as_ptr(),
                prologue.len(),
                head.prologue,
                body.as_ptr(),
                body.len(),
                head.body,
                epilogue.as_ptr(),
                epilogue.len(),
                head.epilogue,
                work.as_mut_ptr(),
                work.len(),
                table.as_ptr(),
                table.len(),
                budget,
            )
        })
    }
}
