//! Wrong in how long lent tables must be, in what is left in them, and in what comes before ROOM.

use crate::calls::{Call, Calls, INDEPENDENT};
use crate::machine::{refused, Document};
use crate::placing::{place, Placing};
use crate::tables::{Lending, HEAD_ENTRIES, NODES_MOST, NODE_ENTRIES, PROGRAM_ENTRIES, SECTION_ENTRIES};
use crate::translate::plan;
use crate::wrong_calls::Wrong;
use crate::{wrong_calls, Answer, RANGE};

wrong_calls! { tables, Lending, [read, check, place, translate];
    HeadOfFour {
        fn sheet_fits(head: &[u64], nodes: &[u64]) -> bool {
            head.len() >= 4 && nodes.len() >= NODE_ENTRIES * NODES_MOST
        }
    }
    HeadOfEleven {
        fn sheet_fits(head: &[u64], nodes: &[u64]) -> bool {
            head.len() > HEAD_ENTRIES && nodes.len() >= NODE_ENTRIES * NODES_MOST
        }
    }
    NodesOf63 {
        fn sheet_fits(head: &[u64], nodes: &[u64]) -> bool {
            head.len() >= HEAD_ENTRIES && nodes.len() >= NODE_ENTRIES * (NODES_MOST - 1)
        }
    }
    LastNodeInPart {
        fn sheet_fits(head: &[u64], nodes: &[u64]) -> bool {
            head.len() >= HEAD_ENTRIES && nodes.len() >= NODE_ENTRIES * NODES_MOST - 1
        }
    }
    NodesMoreThan64 {
        fn sheet_fits(head: &[u64], nodes: &[u64]) -> bool {
            head.len() >= HEAD_ENTRIES && nodes.len() > NODE_ENTRIES * NODES_MOST
        }
    }
    NodesAsManyAsUsed {
        fn sheet_fits(head: &[u64], nodes: &[u64]) -> bool {
            head.len() >= HEAD_ENTRIES && (nodes.len() / NODE_ENTRIES) as u64 >= head[3].min(NODES_MOST as u64)
        }
    }
    ProgramOfFour {
        fn program_fits(program: &[u64], sections: &[&mut [u32]; 3]) -> bool {
            program.len() >= PROGRAM_ENTRIES - 1 && sections.iter().all(|section| Self::section_fits(section.len()))
        }
    }
    EpilogueRoomUnasked {
        fn program_fits(program: &[u64], sections: &[&mut [u32]; 3]) -> bool {
            let asked = &sections[..2];
            program.len() >= PROGRAM_ENTRIES && asked.iter().all(|section| Self::section_fits(section.len()))
        }
    }
    SectionOf1023 {
        fn section_fits(entries: usize) -> bool {
            entries >= SECTION_ENTRIES - 6
        }
    }
    SectionMoreThan1024 {
        fn section_fits(entries: usize) -> bool {
            entries > SECTION_ENTRIES
        }
    }
    UnusedEntriesLeft {
        fn fill<T: Copy + Default>(table: &mut [T], contents: &[T]) {
            table.iter_mut().zip(contents).for_each(|(entry, content)| *entry = *content);
        }
    }
    LastEntryOfLongTableLeft {
        fn fill<T: Copy + Default>(table: &mut [T], contents: &[T]) {
            let least = [PROGRAM_ENTRIES, HEAD_ENTRIES, NODE_ENTRIES * NODES_MOST, SECTION_ENTRIES];
            let length = table.len();
            let zeroed = if least.contains(&length) { length } else { length - 1 };
            Document::fill(&mut table[..zeroed], contents);
        }
    }
    TablesClearedOnRoom {
        fn refuse<T: Copy + Default>(table: &mut [T], _: u64) {
            table.fill(T::default());
        }
    }
    TablesLeftOnRefusal {
        fn refuse<T: Copy + Default>(_: &mut [T], _: u64) {}
    }
    LastEntryLeftOnRefusal {
        fn refuse<T: Copy + Default>(table: &mut [T], number: u64) {
            if let Some((_, before)) = table.split_last_mut() {
                Document::refuse(before, number);
            }
        }
    }
}

fn rule_before_room(rule: u64, head: &[u64], nodes: &[u64], placed_head: &mut [u64], placed_nodes: &mut [u64]) -> Answer {
    if let Err(answer) = Document::rule(rule) {
        placed_head.fill(0);
        placed_nodes.fill(0);
        return answer;
    }
    place::<Document>(rule, head, nodes, placed_head, placed_nodes)
}

fn rule_before_room_in_one_step(
    rule: u64,
    head: &[u64],
    nodes: &[u64],
    lengths: [u64; 2],
    program: &mut [u64],
    sections: [&mut [u32]; 3],
) -> Answer {
    if rule > 3 {
        program.fill(0);
        sections.into_iter().for_each(|section| section.fill(0));
        return refused(RANGE, 0);
    }
    plan::<Document>(rule, head, nodes, lengths, program, sections)
}

/// The placed tables are left out of ROOM.
fn placed_room_unasked(rule: u64, head: &[u64], nodes: &[u64], placed_head: &mut [u64], placed_nodes: &mut [u64]) -> Answer {
    let (mut full_head, mut full_nodes) = ([0; HEAD_ENTRIES], [0; NODE_ENTRIES * NODES_MOST]);
    let answer = place::<Document>(rule, head, nodes, &mut full_head, &mut full_nodes);
    Document::fill(placed_head, &full_head);
    Document::fill(placed_nodes, &full_nodes);
    answer
}

pub fn orders() -> Vec<Wrong> {
    let wrong = |name, calls| Wrong { name, calls, concerns: &[Call::Place, Call::Plan] };
    vec![
        wrong("rule before room", Calls { place: rule_before_room, ..INDEPENDENT }),
        wrong("rule before room in one step", Calls { plan: rule_before_room_in_one_step, ..INDEPENDENT }),
        wrong("placed room unasked", Calls { place: placed_room_unasked, ..INDEPENDENT }),
    ]
}
