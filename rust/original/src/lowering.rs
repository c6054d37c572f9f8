//! From a read ticket to the original's trees, and the original's answer to a
//! number and a line.
//!
//! The original's error has no line. A node's own step refuses where the
//! original lowers each operand of the node alone and not the node; the
//! first such node, in the order in which the original lowers, has the line.
//!
//! Three refusals are decided before the original is called on the node:
//! - 25: both operands of an offset lower to bytes, the base to under two;
//! - 26: an integer constant of a type of over 16 bytes;
//! - 27: the original's offset of each step of a place, an addition to it
//!   done here first.
//!
//! `doubtful` says cheaply below which nodes they could be met at all.

use crate::{
    listing,
    ticket::{Kind, Location, Node, Place, Ticket, Type},
    wasm::{
        hir, lir,
        lir_lower::{Laid, LowerError, Lowered, LoweredRepr, Run, Start},
    },
    Refusal,
};

/// A place's offset and a type's tree may not grow over these.
const OFFSET: usize = 65_535;
const PARTS: usize = 4_096;

fn fitted(listing: Vec<u8>, room: usize) -> Result<Vec<u8>, Refusal> {
    if listing.len() > room {
        return Err(Refusal::new(28, 0));
    }
    Ok(listing)
}

/// A ticket as the original's trees.
pub struct Prepared<'a> {
    ticket: &'a Ticket,
    types: Vec<hir::Type>,
    start: Start,
    /// Whether 25, 26 or 27 may be met at or below a node.
    doubtful: Vec<bool>,
    root: hir::Expression,
}

impl<'a> Prepared<'a> {
    pub fn new(ticket: &'a Ticket) -> Self {
        let types = types(ticket);
        let start = start(ticket, &types);
        let doubtful = doubtful(ticket);
        let mut prepared = Self {
            ticket,
            types,
            start,
            doubtful,
            root: hir::Expression {
                ty: hir::Type::Unit,
                kind: hir::ExpressionKind::Constant(hir::Constant::NullPointer),
            },
        };
        prepared.root = prepared.expression(prepared.last());
        prepared
    }

    /// Document 01's listing, or the first refusal of lowering, or 28.
    pub fn listing(&self, room: usize) -> Result<Vec<u8>, Refusal> {
        let run = self.lower()?;
        fitted(listing::print(self.ticket, &self.types, &run, None), room)
    }

    /// The listing whose instructions name their nodes (document 02, E7), or
    /// a refusal likewise.
    pub fn listing_with_nodes(&self, room: usize) -> Result<Vec<u8>, Refusal> {
        let run = self.lower()?;
        let mut nodes = Vec::with_capacity(run.instructions.len());
        self.append_nodes(self.last(), &mut nodes);
        let listing = listing::print(self.ticket, &self.types, &run, Some(&nodes));
        fitted(listing, room)
    }

    /// The node of each instruction of an accepted tree: those of the
    /// operands come first, in the order in which the original lowers them,
    /// and what is left of the tree's instructions is the node's own.
    fn append_nodes(&self, node: usize, nodes: &mut Vec<usize>) {
        let before = nodes.len();
        for operand in operands(&self.ticket.nodes[node].kind) {
            self.append_nodes(operand, nodes);
        }
        let alone = self.start.lower_expression(&self.expression(node));
        let count = alone.map_or(0, |run| run.instructions.len());
        nodes.resize(before + count, node);
    }

    /// Whether the original lowers the root: one call, nothing else. For
    /// timing; false as well where the original may not be called.
    pub fn lowers(&self) -> bool {
        !self.doubtful[self.last()] && self.start.lower_expression(&self.root).is_ok()
    }

    /// Whether a refusal of the original is that of a select which chooses
    /// two bits for a byte (document 02, E3): 24 at the select's own step,
    /// behind its condition, and no pair of pieces is unlike.
    pub fn chooses_bits(&self, refusal: Refusal) -> bool {
        let at = |node: &&Node| node.line == refusal.line;
        let Some(node) = self.ticket.nodes.iter().find(at) else {
            return false;
        };
        let Kind::Select(when_true, when_false, condition) = node.kind else {
            return false;
        };
        let (true, Some(first), Some(second)) = (
            refusal.number == 24 && self.is_condition(condition),
            self.pieces(when_true),
            self.pieces(when_false),
        ) else {
            return false;
        };
        let bit = self.types[node.ty] == hir::Type::Bool;
        let destinations = if bit { 1 } else { self.ticket.sizes[node.ty] };
        let mut pairs = first.into_iter().zip(second).take(destinations);
        pairs.all(|pair| match pair {
            (Piece::Bit, Piece::Bit) => true,
            (Piece::Byte, Piece::Byte) => !bit,
            _ => false,
        })
    }

    /// Whether a node can be a select's condition: the original chooses
    /// between two bools by it.
    fn is_condition(&self, node: usize) -> bool {
        let boolean = || {
            Box::new(hir::Expression {
                ty: hir::Type::Bool,
                kind: hir::ExpressionKind::Constant(hir::Constant::Bool(false)),
            })
        };
        let select = hir::Expression {
            ty: hir::Type::Bool,
            kind: hir::ExpressionKind::Select {
                when_true: boolean(),
                when_false: boolean(),
                condition: Box::new(self.expression(node)),
            },
        };
        self.start.lower_expression(&select).is_ok()
    }

    /// The pieces that a node lowers to.
    fn pieces(&self, node: usize) -> Option<Vec<Piece>> {
        let run = self.start.lower_expression(&self.expression(node)).ok()?;
        let mut pieces = Vec::new();
        append_pieces(&run.value, &mut pieces);
        Some(pieces)
    }

    fn lower(&self) -> Result<Run, Refusal> {
        let root = self.last();
        if self.doubtful[root] {
            if let Some(refusal) = self.first_refusal(root) {
                return Err(refusal);
            }
        }
        self.start.lower_expression(&self.root).map_err(|_| {
            self.first_refusal(root)
                .expect("a node's own step has refused")
        })
    }

    fn last(&self) -> usize {
        self.ticket.nodes.len() - 1
    }

    /// The first refusal at or below a node.
    fn first_refusal(&self, node: usize) -> Option<Refusal> {
        let expression = self.expression(node);
        if !self.doubtful[node] && self.start.lower_expression(&expression).is_ok() {
            return None;
        }
        let below = operands(&self.ticket.nodes[node].kind)
            .into_iter()
            .find_map(|operand| self.first_refusal(operand));
        if below.is_some() {
            return below;
        }
        let number = self.decided(node).or_else(|| {
            self.start
                .lower_expression(&expression)
                .err()
                .map(|error| number(&error))
        })?;
        Some(Refusal::new(number, self.ticket.nodes[node].line))
    }

    /// A refusal of the node's own step that the original is not asked for.
    fn decided(&self, node: usize) -> Option<u8> {
        let ty = self.ticket.nodes[node].ty;
        match self.ticket.nodes[node].kind {
            Kind::Int(_) if self.ticket.sizes[ty] > 16 => Some(26),
            Kind::Read(place) => self.steps(place, Some(ty)).err(),
            Kind::Address(place) => self.steps(place, None).err(),
            Kind::Offset(base, offset) => {
                let bytes = self.bytes(base)?;
                self.bytes(offset)?;
                (bytes < 2).then_some(25)
            }
            _ => None,
        }
    }

    /// How many bytes a node lowers to, where it lowers to bytes.
    fn bytes(&self, node: usize) -> Option<usize> {
        let run = self.start.lower_expression(&self.expression(node)).ok()?;
        match run.value {
            Lowered {
                repr: LoweredRepr::Bytes(bytes),
                ..
            } => Some(bytes.len()),
            _ => None,
        }
    }

    /// The offset of a place, resolved step by step from the inside; a read's
    /// last step has the type that it expects.
    fn steps(&self, place: usize, expected: Option<usize>) -> Result<usize, u8> {
        let tree = self.place(place);
        let base = match self.ticket.places[place] {
            Place::Variable(_) | Place::Static(_) => 0,
            Place::Field(base, _) | Place::Element(base, _) => self.steps(base, None)?,
            Place::Offset(base, offset) => {
                let base = self.steps(base, None)?;
                match self.ticket.nodes[offset].kind {
                    Kind::Int(value) if value > (OFFSET - base) as u64 => return Err(27),
                    _ => base,
                }
            }
        };
        debug_assert!(base <= OFFSET);
        let offset = match expected {
            Some(ty) => self.start.place_offset(&tree, &self.types[ty]),
            None => self.start.base_offset(&tree),
        };
        match offset {
            Ok(offset) if offset > OFFSET => Err(27),
            Ok(offset) => Ok(offset),
            Err(error) => Err(number(&error)),
        }
    }

    fn expression(&self, node: usize) -> hir::Expression {
        let node = &self.ticket.nodes[node];
        hir::Expression {
            ty: self.types[node.ty].clone(),
            kind: self.kind(&node.kind),
        }
    }

    fn kind(&self, kind: &Kind) -> hir::ExpressionKind {
        use hir::{Constant, ExpressionKind as E};
        let boxed = |node: &usize| Box::new(self.expression(*node));
        match kind {
            Kind::Bool(value) => E::Constant(Constant::Bool(*value)),
            Kind::Int(value) => E::Constant(Constant::Integer(integer(*value))),
            Kind::Float32(bits) => E::Constant(Constant::Float32(*bits as u32)),
            Kind::Float64(bits) => E::Constant(Constant::Float64(*bits)),
            Kind::Null => E::Constant(Constant::NullPointer),
            Kind::StaticAddress(name, offset) => E::Constant(Constant::StaticAddress {
                name: name.to_string(),
                offset: *offset,
            }),
            Kind::Function(name) => E::Constant(Constant::FunctionAddress(name.to_string())),
            Kind::Read(place) => E::Read(self.place(*place)),
            Kind::Unary(op, operand) => E::IntegerUnary {
                op: unary_op(*op),
                operand: boxed(operand),
            },
            Kind::Binary(op, left, right) => E::IntegerBinary {
                op: binary_op(*op),
                left: boxed(left),
                right: boxed(right),
            },
            Kind::FloatUnary(operand) => E::FloatUnary {
                op: hir::FloatUnaryOp::Negate,
                operand: boxed(operand),
            },
            Kind::FloatBinary(left, right) => E::FloatBinary {
                op: hir::FloatBinaryOp::Add,
                left: boxed(left),
                right: boxed(right),
            },
            Kind::Compare(op, left, right) => E::Compare {
                op: compare_op(*op),
                left: boxed(left),
                right: boxed(right),
            },
            Kind::Convert(op, operand) => E::Convert {
                op: conversion_op(*op),
                operand: boxed(operand),
            },
            Kind::Select(when_true, when_false, condition) => E::Select {
                when_true: boxed(when_true),
                when_false: boxed(when_false),
                condition: boxed(condition),
            },
            Kind::Address(place) => E::AddressOf(self.place(*place)),
            Kind::Offset(base, offset) => E::PointerOffset {
                base: boxed(base),
                offset: boxed(offset),
            },
            Kind::Aggregate(parts) => {
                E::Aggregate(parts.iter().map(|part| self.expression(*part)).collect())
            }
            Kind::Extract(aggregate, index) => E::ExtractElement {
                aggregate: boxed(aggregate),
                index: *index as usize,
            },
            Kind::Insert(aggregate, index, value) => E::InsertElement {
                aggregate: boxed(aggregate),
                index: *index as usize,
                value: boxed(value),
            },
        }
    }

    fn place(&self, place: usize) -> hir::Place {
        let base = |place: &usize| Box::new(self.place(*place));
        let node = |node: &usize| Box::new(self.expression(*node));
        match &self.ticket.places[place] {
            Place::Variable(name) => hir::Place::Variable(name.to_string()),
            Place::Static(name) => hir::Place::Static(name.to_string()),
            Place::Field(place, index) => hir::Place::Field {
                base: base(place),
                index: *index as usize,
            },
            Place::Element(place, index) => hir::Place::Element {
                base: base(place),
                index: node(index),
            },
            Place::Offset(place, offset) => hir::Place::ByteOffset {
                base: base(place),
                offset: node(offset),
            },
        }
    }
}

/// What a select chooses between.
enum Piece {
    Bit,
    Byte,
}

fn append_pieces(value: &Lowered, pieces: &mut Vec<Piece>) {
    match &value.repr {
        LoweredRepr::Unit => {}
        LoweredRepr::Bit(_) => pieces.push(Piece::Bit),
        LoweredRepr::Bytes(bytes) => pieces.extend(bytes.iter().map(|_| Piece::Byte)),
        LoweredRepr::Aggregate(parts) => {
            parts.iter().for_each(|part| append_pieces(part, pieces));
        }
    }
}

/// A node's operands in the order in which the original lowers them. It does
/// not look into a float operation, nor lower a place's index.
fn operands(kind: &Kind) -> Vec<usize> {
    match kind {
        Kind::Unary(_, a) | Kind::Convert(_, a) | Kind::Extract(a, _) => vec![*a],
        Kind::Binary(_, a, b) | Kind::Compare(_, a, b) => vec![*a, *b],
        Kind::Offset(a, b) | Kind::Insert(a, _, b) => vec![*a, *b],
        Kind::Select(a, b, c) => vec![*a, *b, *c],
        Kind::Aggregate(parts) => parts.clone(),
        _ => Vec::new(),
    }
}

/// For each node, whether 25, 26 or 27 may be met at or below it. Never
/// false where one is met; true only sends the ticket the slower way.
fn doubtful(ticket: &Ticket) -> Vec<bool> {
    let mut doubtful: Vec<bool> = Vec::with_capacity(ticket.nodes.len());
    for node in &ticket.nodes {
        let own = match node.kind {
            Kind::Int(_) => ticket.sizes[node.ty] > 16,
            Kind::Read(place) | Kind::Address(place) => reach(ticket, place) > OFFSET as u64,
            Kind::Offset(base, _) => !surely_two_bytes(ticket, base),
            _ => false,
        };
        let below = operands(&node.kind)
            .iter()
            .any(|&operand| doubtful[operand]);
        doubtful.push(own || below);
    }
    doubtful
}

/// A bound of a place's offset: a type has at most 1,024 bytes.
fn reach(ticket: &Ticket, place: usize) -> u64 {
    let offset_of = |locations: &[Location], name: u64| {
        usize::try_from(name)
            .ok()
            .and_then(|name| locations.get(name))
            .map_or(0, |location| location.offset as u64)
    };
    match ticket.places[place] {
        Place::Variable(name) => offset_of(&ticket.variables, name),
        Place::Static(name) => offset_of(&ticket.statics, name),
        Place::Field(base, _) | Place::Element(base, _) => {
            reach(ticket, base).saturating_add(1_024)
        }
        Place::Offset(base, offset) => match ticket.nodes[offset].kind {
            Kind::Int(value) => reach(ticket, base).saturating_add(value),
            _ => reach(ticket, base),
        },
    }
}

/// Whether a node that lowers to bytes surely lowers to two or more.
fn surely_two_bytes(ticket: &Ticket, node: usize) -> bool {
    let node = &ticket.nodes[node];
    match node.kind {
        Kind::Null | Kind::StaticAddress(..) | Kind::Function(_) => true,
        Kind::Address(_) | Kind::Offset(..) => true,
        Kind::Int(_) | Kind::Read(_) => ticket.sizes[node.ty] >= 2,
        _ => false,
    }
}

/// The ticket's types as trees. A tree can be far larger than its weight
/// where arrays of length 0 have large elements. Where one has too many
/// parts, such arrays get a small element of their own for each element
/// type: their element is never looked at, and equal types stay equal.
fn types(ticket: &Ticket) -> Vec<hir::Type> {
    let mut parts: Vec<usize> = Vec::with_capacity(ticket.types.len());
    for ty in &ticket.types {
        let count = match ty {
            Type::Array(element, _) => 1 + parts[*element],
            Type::Struct(fields) | Type::Tuple(fields) => fields
                .iter()
                .fold(1, |sum: usize, &field| sum.saturating_add(parts[field])),
            _ => 1,
        };
        parts.push(count.min(2 * PARTS));
    }
    let short = parts.iter().any(|&count| count > PARTS);

    let mut types: Vec<hir::Type> = Vec::with_capacity(ticket.types.len());
    for ty in &ticket.types {
        let fields = |fields: &[usize]| fields.iter().map(|&ty| types[ty].clone()).collect();
        let built = match ty {
            Type::Unit => hir::Type::Unit,
            Type::Bool => hir::Type::Bool,
            Type::Bits(width) => hir::Type::Bits(bit_width(*width as u8)),
            Type::Float(32) => hir::Type::Float(hir::FloatWidth::Bits32),
            Type::Float(_) => hir::Type::Float(hir::FloatWidth::Bits64),
            Type::Pointer => hir::Type::Pointer,
            Type::Array(element, 0) if short => hir::Type::Array {
                element: Box::new(hir::Type::OpaqueBytes(*element)),
                length: 0,
            },
            Type::Array(element, length) => hir::Type::Array {
                element: Box::new(types[*element].clone()),
                length: *length,
            },
            Type::Struct(list) => hir::Type::Struct(fields(list)),
            Type::Tuple(list) => hir::Type::Tuple(fields(list)),
            Type::Opaque(length) => hir::Type::OpaqueBytes(*length),
        };
        types.push(built);
    }
    types
}

/// The lowering's state at the start.
fn start(ticket: &Ticket, types: &[hir::Type]) -> Start {
    let function = ticket.function.to_string();
    let laid = |locations: &[Location]| {
        locations
            .iter()
            .enumerate()
            .map(|(name, location)| Laid {
                name: name.to_string(),
                storage: location.storage,
                offset: location.offset,
                ty: types[location.ty].clone(),
                bit: location.bit,
            })
            .collect()
    };
    let storages = ticket
        .storages
        .iter()
        .enumerate()
        .map(|(id, storage)| lir::Storage {
            id: lir::StorageId(id),
            name: None,
            owner: if storage.of_function {
                lir::StorageOwner::Function(function.clone())
            } else {
                lir::StorageOwner::Program
            },
            kind: match storage.kind {
                0 => lir::StorageKind::Bit,
                1 => lir::StorageKind::Byte,
                2 => lir::StorageKind::Bytes {
                    length: storage.length.try_into().expect("a length over 0"),
                },
                _ => lir::StorageKind::Carry,
            },
            placement: lir::VirtualPlacement {
                allowed_regions: listing::regions(storage.regions),
                must_be_direct: false,
                fixed: None,
            },
        })
        .collect();
    Start::new(
        function.clone(),
        storages,
        laid(&ticket.variables),
        laid(&ticket.statics),
        ticket.next,
    )
}

fn number(error: &LowerError) -> u8 {
    match error {
        LowerError::UnknownPlace(_) => 20,
        LowerError::InvalidPlace(_) => 21,
        LowerError::TypeMismatch { .. } => 22,
        LowerError::UnsupportedType(_) => 23,
        LowerError::UnsupportedExpression(_) => 24,
        _ => unreachable!("no other error comes from an expression: {error}"),
    }
}

fn bit_width(width: u8) -> hir::BitWidth {
    hir::BitWidth::new(width).expect("a width from 1 to 64")
}

/// The constant's own width is not read.
fn integer(value: u64) -> hir::IntegerConstant {
    hir::IntegerConstant::new(bit_width(64), value.into()).expect("a number below 2^64")
}

fn signed(first: bool) -> hir::Signedness {
    if first {
        hir::Signedness::Signed
    } else {
        hir::Signedness::Unsigned
    }
}

fn unary_op(op: u64) -> hir::IntegerUnaryOp {
    use hir::IntegerUnaryOp::*;
    [
        Negate,
        Not,
        CountLeadingZeros,
        CountTrailingZeros,
        PopulationCount,
    ][op as usize]
}

fn binary_op(op: u64) -> hir::IntegerBinaryOp {
    use hir::IntegerBinaryOp::*;
    match op {
        0 => Add,
        1 => Subtract,
        2 => Multiply,
        3 | 4 => Divide(signed(op == 3)),
        5 | 6 => Remainder(signed(op == 5)),
        7 => And,
        8 => Or,
        9 => Xor,
        10 => ShiftLeft,
        11 | 12 => ShiftRight(signed(op == 11)),
        13 => RotateLeft,
        14 => RotateRight,
        15 | 16 => SaturatingAdd(signed(op == 15)),
        _ => SaturatingSubtract(signed(op == 17)),
    }
}

fn compare_op(op: u64) -> hir::CompareOp {
    use hir::CompareOp::*;
    match op {
        0 => Equal,
        1 => NotEqual,
        2 | 3 => LessThan(signed(op == 2)),
        4 | 5 => LessThanOrEqual(signed(op == 4)),
        6 | 7 => GreaterThan(signed(op == 6)),
        8 | 9 => GreaterThanOrEqual(signed(op == 8)),
        10 => FloatEqual,
        11 => FloatNotEqual,
        12 => FloatLessThan,
        13 => FloatLessThanOrEqual,
        14 => FloatGreaterThan,
        _ => FloatGreaterThanOrEqual,
    }
}

fn conversion_op(op: u64) -> hir::ConversionOp {
    use hir::ConversionOp::*;
    match op {
        0 => Truncate,
        1 => ZeroExtend,
        2 => SignExtend,
        3 | 4 => IntegerToFloat(signed(op == 3)),
        5..=8 => FloatToInteger {
            signedness: signed(op <= 6),
            saturating: matches!(op, 6 | 8),
        },
        9 => PromoteFloat,
        10 => DemoteFloat,
        11 => Reinterpret,
        12 => BooleanToInteger,
        _ => IntegerToBoolean,
    }
}
