//! Wrong in the checks 3, 4 and 6 to 11, which the calls share.

use crate::graph::{last, Checking, Growing, Node, NodeRow, Offset, Sheet};
use crate::machine::{largest, refused, Document};
use crate::{wrong_calls, Answer, ALIGN, BOUNDS, LINE, LONG, OFFSET, RANGE, SHAPE, WINDOW};

wrong_calls! { form, Checking, [read, check];
    WidthThree {
        fn header_in_range(d: u64, n: u64, store: u64) -> bool {
            d == 3 && n <= 4096 && store <= 0xFFFF || Document::header_in_range(d, n, store)
        }
    }
    WidthEightRefused {
        fn header_in_range(d: u64, n: u64, store: u64) -> bool {
            d != 8 && Document::header_in_range(d, n, store)
        }
    }
    Elements4097 {
        fn header_in_range(d: u64, n: u64, store: u64) -> bool {
            Document::header_in_range(d, n.saturating_sub(1), store)
        }
    }
    ElementsBelow4096 {
        fn header_in_range(d: u64, n: u64, store: u64) -> bool {
            n < 4096 && Document::header_in_range(d, n, store)
        }
    }
    NoElementsRefused {
        fn header_in_range(d: u64, n: u64, store: u64) -> bool {
            n > 0 && Document::header_in_range(d, n, store)
        }
    }
    Address65536 {
        fn address_in_range(address: u64) -> bool {
            address <= 65_536
        }
    }
    LastAddressRefused {
        fn address_in_range(address: u64) -> bool {
            address < 0xFFFF
        }
    }
    SplatUnjudged {
        fn splat_in_range(_: u64, _: u64) -> bool {
            true
        }
    }
    LargestSplatRefused {
        fn splat_in_range(d: u64, value: u64) -> bool {
            value < largest(d)
        }
    }
    SplatByEightBytesAtD4 {
        fn splat_in_range(d: u64, value: u64) -> bool {
            d == 4 || Document::splat_in_range(d, value)
        }
    }
    OperationSix {
        fn operation_in_range(operation: u64) -> bool {
            operation <= 6
        }
    }
    OperationBelowFive {
        fn operation_in_range(operation: u64) -> bool {
            operation < 5
        }
    }
    ShiftOf16 {
        fn shift_in_range(d: u64, from: u64, to: u64) -> bool {
            from <= 16 && to <= 16 && from % d == 0 && to % d == 0 && from != to
        }
    }
    ShiftToUnjudged {
        fn shift_in_range(d: u64, from: u64, to: u64) -> bool {
            from <= 15 && from % d == 0 && to % d == 0 && from != to
        }
    }
    ShiftOfAnyBytes {
        fn shift_in_range(_: u64, from: u64, to: u64) -> bool {
            from <= 15 && to <= 15 && from != to
        }
    }
    ShiftFromAnyByte {
        fn shift_in_range(d: u64, from: u64, to: u64) -> bool {
            from <= 15 && to <= 15 && to % d == 0 && from != to
        }
    }
    ShiftNowhere {
        fn shift_in_range(d: u64, from: u64, to: u64) -> bool {
            from <= 15 && to <= 15 && from % d == 0 && to % d == 0
        }
    }
    WindowTwoIsTable {
        fn node(d: u64, [kind, x, y]: NodeRow) -> Option<Node> {
            Document::node(d, [kind, if kind == 1 { x.min(1) } else { x }, y])
        }
    }
    KindByItsLowByte {
        fn node(d: u64, [kind, x, y]: NodeRow) -> Option<Node> {
            Document::node(d, [kind % 256, x, y])
        }
    }
    UnusedFieldOfSplatJudged {
        fn node(d: u64, row: NodeRow) -> Option<Node> {
            Document::node(d, row).filter(|node| !matches!(node, Node::Splat(_)) || row[2] == 0)
        }
    }
    UnusedFieldOfOpJudged {
        fn node(d: u64, row: NodeRow) -> Option<Node> {
            Document::node(d, row).filter(|node| !matches!(node, Node::Op(_)) || row[2] == 0)
        }
    }
    UnknownKindIsLine {
        fn add(growing: &mut Growing, row: NodeRow) -> Result<(), Answer> {
            if matches!(row[0], 1..=4) { Document::add(growing, row) } else { Err(refused(LINE, growing.line())) }
        }
    }
    ShapeBeforeRange {
        fn add(growing: &mut Growing, row: NodeRow) -> Result<(), Answer> {
            let few = match row[0] {
                3 => growing.waiting < 2,
                4 => growing.waiting < 1,
                _ => false,
            };
            if few { Err(refused(SHAPE, growing.line())) } else { Document::add(growing, row) }
        }
    }
    Node65JudgedByShapeFirst {
        fn add(growing: &mut Growing, row: NodeRow) -> Result<(), Answer> {
            if growing.sheet.nodes.len() == 64 { Err(refused(SHAPE, 66)) } else { Document::add(growing, row) }
        }
    }
    LinesOneTooFew {
        fn add(growing: &mut Growing, row: NodeRow) -> Result<(), Answer> {
            Document::add(growing, row).map_err(|answer| refused(answer.number, answer.place - 1))
        }
    }
    HeaderAtPlaceZero {
        fn header(d: u64, n: u64, store: u64) -> Result<Growing, Answer> {
            Document::header(d, n, store).map_err(|answer| refused(answer.number, 0))
        }
    }
    Node65Taken {
        fn nodes_most() -> usize {
            65
        }
    }
    Node64Refused {
        fn nodes_most() -> usize {
            63
        }
    }
    ShiftNeedsTwo {
        fn waiting(before: usize, node: Node) -> Option<usize> {
            Document::waiting(before, node).filter(|_| !matches!(node, Node::Shift { .. }) || before >= 2)
        }
    }
    OpNeedsThree {
        fn waiting(before: usize, node: Node) -> Option<usize> {
            Document::waiting(before, node).filter(|_| !matches!(node, Node::Op(_)) || before >= 3)
        }
    }
    NumberOfNodesUnjudged {
        fn end(growing: &Growing, _: u64) -> Result<(), Answer> {
            if growing.waiting == 1 { Ok(()) } else { Err(refused(SHAPE, growing.line())) }
        }
    }
    NumberOfNodesByItsLowByte {
        fn end(growing: &Growing, count: u64) -> Result<(), Answer> {
            Document::end(growing, count % 256)
        }
    }
    TwoMayWaitAtTheEnd {
        fn end(growing: &Growing, count: u64) -> Result<(), Answer> {
            let fine = growing.waiting >= 1 && count == growing.sheet.nodes.len() as u64;
            if fine { Ok(()) } else { Err(refused(SHAPE, growing.line())) }
        }
    }
    EndAtLastNode {
        fn end(growing: &Growing, count: u64) -> Result<(), Answer> {
            Document::end(growing, count).map_err(|answer| refused(SHAPE, answer.place - 1))
        }
    }
    EndIsRange {
        fn end(growing: &Growing, count: u64) -> Result<(), Answer> {
            Document::end(growing, count).map_err(|answer| refused(RANGE, answer.place))
        }
    }
}

wrong_calls! { addresses, Checking, [plain, place, translate];
    TableBeforeWork {
        fn windows(lengths: [u64; 2]) -> Result<(), Answer> {
            Document::windows([0, lengths[1]])?;
            Document::windows(lengths)
        }
    }
    WindowWithoutPlace {
        fn windows(lengths: [u64; 2]) -> Result<(), Answer> {
            Document::windows(lengths).map_err(|_| refused(WINDOW, 0))
        }
    }
    WindowOf65552 {
        fn window_allowed(length: u64) -> bool {
            length <= 65_552 && length.is_multiple_of(16)
        }
    }
    WindowBelow65536 {
        fn window_allowed(length: u64) -> bool {
            length < 65_536 && length.is_multiple_of(16)
        }
    }
    WindowOfEights {
        fn window_allowed(length: u64) -> bool {
            length <= 65_536 && length.is_multiple_of(8)
        }
    }
    WindowOf32Bits {
        fn window_allowed(length: u64) -> bool {
            Document::window_allowed(length % (1 << 32))
        }
    }
    EmptyWindowRefused {
        fn window_allowed(length: u64) -> bool {
            length > 0 && Document::window_allowed(length)
        }
    }
    StoreUnaligned {
        fn alignment(sheet: &Sheet) -> Result<(), Answer> {
            Document::alignment(&Sheet { store: 0, ..sheet.clone() })
        }
    }
    LoadsUnaligned {
        fn alignment(sheet: &Sheet) -> Result<(), Answer> {
            if Self::aligned(sheet.d, sheet.store) { Ok(()) } else { Err(refused(ALIGN, 1)) }
        }
    }
    AlignmentOfStoreLast {
        fn alignment(sheet: &Sheet) -> Result<(), Answer> {
            Document::alignment(&Sheet { store: 0, ..sheet.clone() })?;
            Document::alignment(sheet)
        }
    }
    AlignedByHalves {
        fn aligned(d: u64, address: u64) -> bool {
            address.is_multiple_of(d.div_ceil(2))
        }
    }
    AlignedByTwoElements {
        fn aligned(d: u64, address: u64) -> bool {
            address.is_multiple_of(2 * d)
        }
    }
    BoundsOneElementEarly {
        fn beyond(sheet: &Sheet, address: u64, length: u64) -> bool {
            address + sheet.bytes() + sheet.d > length
        }
    }
    BoundsAtTheLength {
        fn beyond(sheet: &Sheet, address: u64, length: u64) -> bool {
            address + sheet.bytes() >= length
        }
    }
    NoBoundsWithoutElements {
        fn beyond(sheet: &Sheet, address: u64, length: u64) -> bool {
            sheet.n > 0 && Document::beyond(sheet, address, length)
        }
    }
    TableBoundedByWork {
        fn bounds(sheet: &Sheet, lengths: [u64; 2]) -> Result<(), Answer> {
            Document::bounds(sheet, [lengths[0], lengths[0].min(lengths[1])])
        }
    }
    BoundsOfStoreLast {
        fn bounds(sheet: &Sheet, lengths: [u64; 2]) -> Result<(), Answer> {
            let whole = lengths[0].max(sheet.store + sheet.bytes());
            let judged = Document::bounds(sheet, lengths);
            match judged {
                Err(answer) if answer.place == 1 => Document::bounds(sheet, [whole, lengths[1]]).and(judged),
                judged => judged,
            }
        }
    }
    BoundsWithoutPlace {
        fn bounds(sheet: &Sheet, lengths: [u64; 2]) -> Result<(), Answer> {
            Document::bounds(sheet, lengths).map_err(|_| refused(BOUNDS, 0))
        }
    }
    CarryAtTheStore {
        fn carried(sheet: &Sheet, window: u64, address: u64) -> bool {
            window == 0 && address <= sheet.store && sheet.store < address + sheet.bytes()
        }
    }
    CarryBehindTheLoop {
        fn carried(sheet: &Sheet, window: u64, address: u64) -> bool {
            window == 0 && address < sheet.store && sheet.store <= address + sheet.bytes()
        }
    }
    CarryInTable {
        fn carried(sheet: &Sheet, _: u64, address: u64) -> bool {
            Document::carried(sheet, 0, address)
        }
    }
    CarryNowhere {
        fn carried(_: &Sheet, _: u64, _: u64) -> bool {
            false
        }
    }
    CarryOfEveryOverlap {
        fn carried(sheet: &Sheet, window: u64, address: u64) -> bool {
            let bytes = sheet.bytes();
            window == 0 && address < sheet.store + bytes && sheet.store < address + bytes
        }
    }
    CarryOfAlmostAllOverlaps {
        fn carried(sheet: &Sheet, window: u64, address: u64) -> bool {
            address != sheet.store && CarryOfEveryOverlap::carried(sheet, window, address)
        }
    }
}

wrong_calls! { offsets, Checking, [offset_check, translate];
    OffsetOfStoreFirst {
        fn offsets(sheet: &Sheet) -> Result<(), Answer> {
            let mut waiting: Vec<Offset> = Vec::new();
            for &node in &sheet.nodes {
                let offset = Self::node_offset(&mut waiting, node).unwrap_or(None);
                waiting.push(offset);
            }
            let root = last(&mut waiting);
            if !Self::agree(root, Some(sheet.offset())) {
                return Err(refused(OFFSET, 1));
            }
            Document::offsets(sheet)
        }
    }
    OffsetOfStoreUnjudged {
        fn offsets(sheet: &Sheet) -> Result<(), Answer> {
            Document::offsets(sheet).or_else(|answer| if answer.place == 1 { Ok(()) } else { Err(answer) })
        }
    }
    OffsetOfStoreBehindTheNodes {
        fn offsets(sheet: &Sheet) -> Result<(), Answer> {
            let end = sheet.nodes.len() as u64 + 1;
            Document::offsets(sheet).map_err(|answer| if answer.place == 1 { refused(OFFSET, end) } else { answer })
        }
    }
    OffsetLinesOneTooFew {
        fn offsets(sheet: &Sheet) -> Result<(), Answer> {
            Document::offsets(sheet).map_err(|answer| refused(OFFSET, answer.place.max(2) - 1))
        }
    }
    OpOffsetOfLeft {
        fn op_offset(left: Offset, _: Offset) -> Offset {
            left
        }
    }
    OpOffsetOfRight {
        fn op_offset(_: Offset, right: Offset) -> Offset {
            right
        }
    }
    UndefinedIsZero {
        fn node_offset(waiting: &mut Vec<Offset>, node: Node) -> Option<Offset> {
            if let Node::Splat(_) = node { Some(Some(0)) } else { Document::node_offset(waiting, node) }
        }
    }
    OffsetOfTableLoadIsZero {
        fn node_offset(waiting: &mut Vec<Offset>, node: Node) -> Option<Offset> {
            if let Node::Load { window: 1, .. } = node { Some(Some(0)) } else { Document::node_offset(waiting, node) }
        }
    }
    OffsetModuloEight {
        fn agree(one: Offset, other: Offset) -> bool {
            Document::agree(one.map(|offset| offset % 8), other.map(|offset| offset % 8))
        }
    }
    OpsAgreeAlways {
        fn node_offset(waiting: &mut Vec<Offset>, node: Node) -> Option<Offset> {
            if let Node::Op(_) = node {
                let right = last(waiting);
                return Some(last(waiting).or(right));
            }
            Document::node_offset(waiting, node)
        }
    }
    UndefinedIsShifted {
        fn shiftable(child: Offset, from: u64) -> bool {
            child.is_none() || child == Some(from)
        }
    }
    ShiftFromUnjudged {
        fn shiftable(child: Offset, _: u64) -> bool {
            child.is_some()
        }
    }
    ShiftKeepsOffset {
        fn node_offset(waiting: &mut Vec<Offset>, node: Node) -> Option<Offset> {
            let offset = Document::node_offset(waiting, node)?;
            Some(if let Node::Shift { from, .. } = node { Some(from) } else { offset })
        }
    }
    LongAbove1021 {
        fn too_long(g: u128) -> bool {
            g > 1021
        }
    }
    LongAbove1018 {
        fn too_long(g: u128) -> bool {
            g > 1018
        }
    }
    LongAtItsLine {
        fn length(sheet: &Sheet) -> Result<(), Answer> {
            Document::length(sheet).map_err(|_| refused(LONG, 1))
        }
    }
}
