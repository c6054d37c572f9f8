//! The listing's printer, written from document 01.

use crate::{
    ticket::Ticket,
    wasm::{
        hir,
        lir::{self, *},
        lir_lower::{Lowered, LoweredRepr, Run},
    },
};

const REGIONS: [StorageRegion; 9] = [
    StorageRegion::Accumulator,
    StorageRegion::CarryFlag,
    StorageRegion::ApplicationRam,
    StorageRegion::SpecialRegister,
    StorageRegion::IndirectRegister,
    StorageRegion::ShadowStack,
    StorageRegion::WorkRam,
    StorageRegion::Flash,
    StorageRegion::XRam,
];

const PURPOSES: [&str; 9] = [
    "tmp",
    "add_carry",
    "subtract_borrow",
    "negate_borrow",
    "pointer_carry",
    "compare",
    "integer_to_boolean",
    "condition",
    "read_bool",
];

/// A storage's regions from their sum. ShadowStack alone is put twice, so
/// that narrowing, which leaves it once, is seen there too.
pub fn regions(sum: u64) -> Vec<StorageRegion> {
    let listed = REGIONS
        .iter()
        .enumerate()
        .filter(|(index, _)| sum >> index & 1 == 1)
        .map(|(_, region)| *region);
    match sum {
        32 => vec![StorageRegion::ShadowStack; 2],
        _ => listed.collect(),
    }
}

fn is_narrowed(storage: &Storage<VirtualPlacement>) -> bool {
    storage.placement.allowed_regions == [StorageRegion::ShadowStack]
}

/// The listing of a run; with `nodes`, each instruction's line ends in its
/// node (document 02, E7).
pub fn print(ticket: &Ticket, types: &[hir::Type], run: &Run, nodes: Option<&[usize]>) -> Vec<u8> {
    let older = ticket.storages.len();
    let mut out = Out(Vec::with_capacity(1_024));
    for storage in &run.storages[older..] {
        out.storage(storage);
    }
    for storage in run.storages[..older].iter().filter(|s| is_narrowed(s)) {
        out.word("narrowed").number(storage.id.0).end();
    }
    for (index, instruction) in run.instructions.iter().enumerate() {
        out.word("i");
        out.instruction(&instruction.kind);
        if let Some(nodes) = nodes {
            out.number(nodes[index]);
        }
        out.end();
    }
    out.value(types, &run.value);
    out.word("done")
        .number(run.instructions.len())
        .number(run.storages.len() - older)
        .number(run.next_temporary)
        .end();
    out.0
}

struct Out(Vec<u8>);

impl Out {
    /// A line's first field.
    fn word(&mut self, word: &str) -> &mut Self {
        self.0.extend_from_slice(word.as_bytes());
        self
    }

    fn field(&mut self, word: &str) -> &mut Self {
        self.0.push(b',');
        self.word(word)
    }

    fn digits(&mut self, mut number: usize) -> &mut Self {
        let mut digits = [0; 20];
        let mut at = digits.len();
        loop {
            at -= 1;
            digits[at] = b'0' + (number % 10) as u8;
            number /= 10;
            if number == 0 {
                break;
            }
        }
        self.0.extend_from_slice(&digits[at..]);
        self
    }

    fn number(&mut self, number: usize) -> &mut Self {
        self.0.push(b',');
        self.digits(number)
    }

    fn end(&mut self) {
        self.0.push(b'\n');
    }

    fn storage(&mut self, storage: &Storage<VirtualPlacement>) {
        let (kind, length) = match storage.kind {
            StorageKind::Bit => (0, 0),
            StorageKind::Byte => (1, 0),
            StorageKind::Bytes { length } => (2, length.get()),
            StorageKind::Carry => (3, 0),
        };
        let name = storage.name.as_deref().expect("a new storage has a name");
        let purpose = name.trim_end_matches(|letter: char| letter.is_ascii_digit());
        let number = &name[purpose.len()..];
        let purpose = PURPOSES
            .iter()
            .position(|&known| known == purpose)
            .expect("a purpose of the paper");
        let regions = storage
            .placement
            .allowed_regions
            .iter()
            .map(|region| 1 << REGIONS.iter().position(|known| known == region).unwrap())
            .sum();
        self.word("storage")
            .number(storage.id.0)
            .number(kind)
            .number(length)
            .number(purpose)
            .field(number)
            .number(regions)
            .end();
    }

    fn byte(&mut self, byte: &ByteStorage) -> &mut Self {
        self.number(byte.storage.0);
        self.0.push(b'.');
        self.digits(byte.offset)
    }

    fn operand(&mut self, operand: &ByteOperand) -> &mut Self {
        match operand {
            ByteOperand::Immediate(byte) => self.field("#").digits(usize::from(*byte)),
            ByteOperand::Storage(byte) => self.byte(byte),
        }
    }

    fn bit(&mut self, operand: &BitOperand) -> &mut Self {
        match operand {
            BitOperand::Constant(bit) => self.field("#").digits(usize::from(*bit)),
            BitOperand::Storage(storage) => self.number(storage.0),
        }
    }

    fn carry(&mut self, carry: &Option<StorageId>) -> &mut Self {
        match carry {
            None => self.field("-"),
            Some(storage) => self.number(storage.0),
        }
    }

    fn bytes(&mut self, bytes: &[ByteStorage]) -> &mut Self {
        self.number(bytes.len());
        bytes.iter().fold(self, |out, byte| out.byte(byte))
    }

    fn operands(&mut self, operands: &[ByteOperand]) -> &mut Self {
        self.number(operands.len());
        operands
            .iter()
            .fold(self, |out, operand| out.operand(operand))
    }

    fn instruction(&mut self, kind: &InstructionKind) -> &mut Self {
        use InstructionKind as I;
        match kind {
            I::CopyByte {
                destination,
                source,
            } => self.field("copy").byte(destination).operand(source),
            I::ByteUnary {
                op: ByteUnaryOp::Not,
                destination,
                input,
            } => self.field("not").byte(destination).operand(input),
            I::ByteBinary {
                op,
                destination,
                left,
                right,
            } => {
                let word = match op {
                    ByteBinaryOp::And => "and",
                    ByteBinaryOp::Or => "or",
                    ByteBinaryOp::Xor => "xor",
                };
                self.field(word)
                    .byte(destination)
                    .operand(left)
                    .operand(right)
            }
            I::Add {
                destination,
                left,
                right,
                carry_in,
                carry_out,
            } => self
                .field("add")
                .byte(destination)
                .operand(left)
                .operand(right)
                .carry(carry_in)
                .carry(carry_out),
            I::Subtract {
                destination,
                left,
                right,
                borrow_in,
                borrow_out,
            } => self
                .field("sub")
                .byte(destination)
                .operand(left)
                .operand(right)
                .carry(borrow_in)
                .carry(borrow_out),
            I::Rotate {
                direction,
                through_carry: false,
                destination,
                input,
                carry_in: None,
                carry_out: None,
            } => {
                let word = match direction {
                    RotateDirection::Left => "rol",
                    RotateDirection::Right => "ror",
                };
                self.field(word).byte(destination).operand(input)
            }
            I::AddressOf {
                destination_low,
                destination_high,
                storage,
                offset,
            } => self
                .field("address")
                .byte(destination_low)
                .byte(destination_high)
                .number(storage.0)
                .number(*offset),
            I::FunctionAddress {
                destination_low,
                destination_high,
                function,
            } => self
                .field("function")
                .byte(destination_low)
                .byte(destination_high)
                .field(function),
            I::ShiftBytes {
                op,
                destinations,
                value,
                amount,
                width,
            } => self
                .field("shift")
                .number(shift_op(*op))
                .number(usize::from(*width))
                .bytes(destinations)
                .operands(value)
                .operands(amount),
            I::CompareBytes {
                op,
                destination,
                left,
                right,
                width,
            } => self
                .field("compare")
                .number(compare_op(*op))
                .number(usize::from(*width))
                .number(destination.0)
                .operands(left)
                .operands(right),
            I::SelectByte {
                destination,
                condition,
                when_true,
                when_false,
            } => self
                .field("selbyte")
                .byte(destination)
                .bit(condition)
                .operand(when_true)
                .operand(when_false),
            I::SelectBit {
                destination,
                condition,
                when_true,
                when_false,
            } => self
                .field("selbit")
                .number(destination.0)
                .bit(condition)
                .bit(when_true)
                .bit(when_false),
            I::BitToByte {
                destination,
                source,
            } => self.field("bittobyte").byte(destination).bit(source),
            I::ByteToBit {
                destination,
                source,
            } => self
                .field("bytetobit")
                .number(destination.0)
                .operand(source),
            I::SignExtend {
                destinations,
                source,
                source_width,
            } => self
                .field("sext")
                .number(usize::from(*source_width))
                .bytes(destinations)
                .operands(source),
            I::IntegerUnaryBytes {
                op,
                destinations,
                input,
                width,
            } => self
                .field("unary")
                .number(unary_op(*op))
                .number(usize::from(*width))
                .bytes(destinations)
                .operands(input),
            I::IntegerBinaryBytes {
                op,
                destinations,
                left,
                right,
                width,
            } => self
                .field("binary")
                .number(binary_op(*op))
                .number(usize::from(*width))
                .bytes(destinations)
                .operands(left)
                .operands(right),
            _ => unreachable!("no expression is lowered to {kind:?}"),
        }
    }

    fn value(&mut self, types: &[hir::Type], value: &Lowered) {
        let ty = types
            .iter()
            .position(|ty| *ty == value.ty)
            .expect("a value's type is one of the ticket's");
        self.word("value").number(ty);
        match &value.repr {
            LoweredRepr::Unit => self.field("unit").end(),
            LoweredRepr::Bit(bit) => self.field("bit").bit(bit).end(),
            LoweredRepr::Bytes(bytes) => self.field("bytes").operands(bytes).end(),
            LoweredRepr::Aggregate(parts) => {
                self.field("aggregate").number(parts.len()).end();
                for part in parts {
                    self.value(types, part);
                }
            }
        }
    }
}

fn shift_op(op: ShiftOp) -> usize {
    match op {
        ShiftOp::Left => 0,
        ShiftOp::RightUnsigned => 1,
        ShiftOp::RightSigned => 2,
        ShiftOp::RotateLeft => 3,
        ShiftOp::RotateRight => 4,
    }
}

/// The ticket's number, as for the other two.
fn compare_op(op: lir::CompareOp) -> usize {
    use lir::CompareOp::*;
    match op {
        Equal => 0,
        NotEqual => 1,
        LessThanSigned => 2,
        LessThanUnsigned => 3,
        LessThanOrEqualSigned => 4,
        LessThanOrEqualUnsigned => 5,
        GreaterThanSigned => 6,
        GreaterThanUnsigned => 7,
        GreaterThanOrEqualSigned => 8,
        GreaterThanOrEqualUnsigned => 9,
    }
}

fn unary_op(op: IntegerUnaryBytesOp) -> usize {
    match op {
        IntegerUnaryBytesOp::CountLeadingZeros => 2,
        IntegerUnaryBytesOp::CountTrailingZeros => 3,
        IntegerUnaryBytesOp::PopulationCount => 4,
    }
}

fn binary_op(op: IntegerBinaryBytesOp) -> usize {
    use IntegerBinaryBytesOp::*;
    match op {
        Multiply => 2,
        DivideSigned => 3,
        DivideUnsigned => 4,
        RemainderSigned => 5,
        RemainderUnsigned => 6,
        SaturatingAddSigned => 15,
        SaturatingAddUnsigned => 16,
        SaturatingSubtractSigned => 17,
        SaturatingSubtractUnsigned => 18,
    }
}
