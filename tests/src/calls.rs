//! Every call of the library as a function, and sets of them: the independent one of the paper's own rules, the library's
//! (`board.rs`), and those that are wrong on purpose (`wrong_calls.rs`).

use crate::graph::Checking;
use crate::machine::Document;
use crate::placing::Placing;
use crate::plain::Looping;
use crate::sheet::Reading;
use crate::tables::Lending;
use crate::translate::{Planning, Translating};
use crate::{Answer, Run};

pub use crate::graph::{check, offset_check};
pub use crate::machine::run;
pub use crate::placing::place;
pub use crate::plain::plain;
pub use crate::sheet::read;
pub use crate::translate::{plan, translate};

/// The calls by their names.
#[derive(Clone, Copy, Debug, PartialEq, Eq)]
pub enum Call {
    Read,
    Check,
    OffsetCheck,
    Plain,
    Place,
    Translate,
    Plan,
    Run,
}

pub const ALL: [Call; 8] =
    [Call::Read, Call::Check, Call::OffsetCheck, Call::Plain, Call::Place, Call::Translate, Call::Plan, Call::Run];

/// text, head, nodes
pub type Read = fn(&[u8], &mut [u64], &mut [u64]) -> Answer;
/// head, nodes
pub type Check = fn(&[u64], &[u64]) -> Answer;
/// head, nodes, work, table
pub type Plain = fn(&[u64], &[u64], &mut [u8], &[u8]) -> Answer;
/// rule, head, nodes, placed head, placed nodes
pub type Place = fn(u64, &[u64], &[u64], &mut [u64], &mut [u64]) -> Answer;
/// head, nodes, lengths of the windows, program, sections
pub type Translate = fn(&[u64], &[u64], [u64; 2], &mut [u64], [&mut [u32]; 3]) -> Answer;
/// rule, then as `Translate`
pub type Plan = fn(u64, &[u64], &[u64], [u64; 2], &mut [u64], [&mut [u32]; 3]) -> Answer;

#[derive(Clone, Copy)]
pub struct Calls {
    pub read: Read,
    pub check: Check,
    pub offset_check: Check,
    pub plain: Plain,
    pub place: Place,
    pub translate: Translate,
    pub plan: Plan,
    pub run: Run,
}

// The paper's own rules.
impl Lending for Document {}
impl Checking for Document {}
impl Reading for Document {}
impl Looping for Document {}
impl Placing for Document {}
impl Translating for Document {}
impl Planning for Document {}

pub const INDEPENDENT: Calls = Calls {
    read: read::<Document>,
    check: check::<Document>,
    offset_check: offset_check::<Document>,
    plain: plain::<Document>,
    place: place::<Document>,
    translate: translate::<Document>,
    plan: plan::<Document>,
    run: run::<Document>,
};
