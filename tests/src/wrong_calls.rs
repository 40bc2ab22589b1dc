//! Implementations that are wrong on purpose, each in one rule, for every call: what makes them, and all of them together. Those
//! of the machine are in `wrong.rs`, the others in a file for each kind of rule.

use crate::calls::{Call, Calls, INDEPENDENT};
use crate::{wrong, wrong_checks, wrong_code, wrong_loops, wrong_placing, wrong_reading, wrong_tables};

/// A wrong implementation, and the calls that it can show in.
pub struct Wrong {
    pub name: &'static str,
    pub calls: Calls,
    pub concerns: &'static [Call],
}

/// Implementations that follow the document but for the rules given, all of one kind, and the list of them. Some of the calls
/// that such rules concern are made of them, not all, since each costs the compiler some time: the families hand what they make
/// to every call in turn, so that a rule which is tried in one of them is tried in the others as often.
#[macro_export]
macro_rules! wrong_calls {
    ($list:ident, $kind:ident, $calls:tt; $($name:ident { $($rule:tt)* })*) => {
        $(
            struct $name;
            impl $kind for $name {
                $($rule)*
            }
            $crate::other_rules!($kind, $name);
        )*

        pub fn $list() -> Vec<$crate::wrong_calls::Wrong> {
            vec![$($crate::wrong_in!($name, $calls)),*]
        }
    };
}

/// The calls named, of a wrong implementation; the others are the paper's.
#[macro_export]
macro_rules! wrong_in {
    ($name:ident, [$($call:ident),*]) => {
        $crate::wrong_calls::Wrong {
            name: stringify!($name),
            calls: $crate::calls::Calls { $($call: $crate::calls::$call::<$name>,)* ..$crate::calls::INDEPENDENT },
            concerns: &[$($crate::concern!($call)),*],
        }
    };
}

/// A call by the name of its function.
#[macro_export]
macro_rules! concern {
    (read) => {
        $crate::calls::Call::Read
    };
    (check) => {
        $crate::calls::Call::Check
    };
    (offset_check) => {
        $crate::calls::Call::OffsetCheck
    };
    (plain) => {
        $crate::calls::Call::Plain
    };
    (place) => {
        $crate::calls::Call::Place
    };
    (translate) => {
        $crate::calls::Call::Translate
    };
    (plan) => {
        $crate::calls::Call::Plan
    };
}

/// The document's rules for every kind but one.
#[macro_export]
macro_rules! other_rules {
    (Lending, $name:ident) => {
        impl $crate::graph::Checking for $name {}
        $crate::other_rules!(Checking but Lending, $name);
    };
    (Checking, $name:ident) => {
        impl $crate::tables::Lending for $name {}
        $crate::other_rules!(Checking but Lending, $name);
    };
    (Checking but Lending, $name:ident) => {
        impl $crate::sheet::Reading for $name {}
        impl $crate::plain::Looping for $name {}
        impl $crate::placing::Placing for $name {}
        impl $crate::translate::Translating for $name {}
        impl $crate::translate::Planning for $name {}
    };
    (Reading, $name:ident) => {
        impl $crate::tables::Lending for $name {}
        impl $crate::graph::Checking for $name {}
        impl $crate::plain::Looping for $name {}
        impl $crate::placing::Placing for $name {}
        impl $crate::translate::Translating for $name {}
        impl $crate::translate::Planning for $name {}
    };
    (Looping, $name:ident) => {
        impl $crate::tables::Lending for $name {}
        impl $crate::graph::Checking for $name {}
        impl $crate::sheet::Reading for $name {}
        impl $crate::placing::Placing for $name {}
        impl $crate::translate::Translating for $name {}
        impl $crate::translate::Planning for $name {}
    };
    (Placing, $name:ident) => {
        impl $crate::tables::Lending for $name {}
        impl $crate::graph::Checking for $name {}
        impl $crate::sheet::Reading for $name {}
        impl $crate::plain::Looping for $name {}
        impl $crate::translate::Translating for $name {}
        impl $crate::translate::Planning for $name {}
    };
    (Translating, $name:ident) => {
        impl $crate::tables::Lending for $name {}
        impl $crate::graph::Checking for $name {}
        impl $crate::sheet::Reading for $name {}
        impl $crate::plain::Looping for $name {}
        impl $crate::placing::Placing for $name {}
        impl $crate::translate::Planning for $name {}
    };
    (Planning, $name:ident) => {
        impl $crate::tables::Lending for $name {}
        impl $crate::graph::Checking for $name {}
        impl $crate::sheet::Reading for $name {}
        impl $crate::plain::Looping for $name {}
        impl $crate::placing::Placing for $name {}
        impl $crate::translate::Translating for $name {}
    };
}

/// The wrong machines, each in a set of calls that is otherwise the paper's.
fn machines() -> Vec<Wrong> {
    let wrong = |(name, run)| Wrong { name, calls: Calls { run, ..INDEPENDENT }, concerns: &[Call::Run] };
    wrong::WRONG.into_iter().map(wrong).collect()
}

pub fn all() -> Vec<Wrong> {
    let kinds = [
        machines(),
        wrong_tables::tables(),
        wrong_tables::orders(),
        wrong_reading::reading(),
        wrong_checks::form(),
        wrong_checks::addresses(),
        wrong_checks::offsets(),
        wrong_loops::loops(),
        wrong_placing::placing(),
        wrong_code::code(),
        wrong_code::planning(),
    ];
    kinds.into_iter().flatten().collect()
}
