//! The ticket's reader, written from document 01: its forms, its refusals 1
//! to 10 and their order. The limits are document 02's.
//!
//! A line is first split into numbers, each with the class of number that its
//! place in the form asks for. Every test is then one pass over them.

use crate::Refusal;

pub const TEXT_BYTES: usize = 65_536;
const FEW: u64 = 65_535;
/// Lines of a kind, at most.
const TYPE_LINES: usize = 256;
const STORAGE_LINES: usize = 256;
const VARIABLE_LINES: usize = 64;
const STATIC_LINES: usize = 64;
const PLACE_LINES: usize = 1_024;
const NODE_LINES: usize = 1_024;
/// The sizes and the weights of all nodes' types together, at most.
const SIZE_SUM: usize = 8_192;
const WEIGHT_SUM: usize = 8_192;

#[derive(Clone, Debug, PartialEq, Eq)]
pub enum Type {
    Unit,
    Bool,
    Bits(u64),
    Float(u64),
    Pointer,
    Array(usize, usize),
    Struct(Vec<usize>),
    Tuple(Vec<usize>),
    Opaque(usize),
}

#[derive(Clone, Debug)]
pub struct Storage {
    pub kind: u64,
    pub length: usize,
    pub of_function: bool,
    pub regions: u64,
}

/// A variable or a static.
#[derive(Clone, Debug)]
pub struct Location {
    pub storage: usize,
    pub offset: usize,
    pub ty: usize,
    pub bit: bool,
}

#[derive(Clone, Debug)]
pub enum Place {
    Variable(u64),
    Static(u64),
    Field(usize, u64),
    Element(usize, usize),
    Offset(usize, usize),
}

#[derive(Clone, Debug)]
pub enum Kind {
    Bool(bool),
    Int(u64),
    Float32(u64),
    Float64(u64),
    Null,
    StaticAddress(u64, usize),
    Function(u64),
    Read(usize),
    Unary(u64, usize),
    Binary(u64, usize, usize),
    FloatUnary(usize),
    FloatBinary(usize, usize),
    Compare(u64, usize, usize),
    Convert(u64, usize),
    Select(usize, usize, usize),
    Address(usize),
    Offset(usize, usize),
    Aggregate(Vec<usize>),
    Extract(usize, u64),
    Insert(usize, u64, usize),
}

#[derive(Clone, Debug)]
pub struct Node {
    pub ty: usize,
    pub kind: Kind,
    pub line: usize,
}

/// A ticket that reads. The root is the last node.
#[derive(Clone, Debug, Default)]
pub struct Ticket {
    pub function: u64,
    pub next: usize,
    pub types: Vec<Type>,
    pub sizes: Vec<usize>,
    pub storages: Vec<Storage>,
    pub variables: Vec<Location>,
    pub statics: Vec<Location>,
    pub places: Vec<Place>,
    pub nodes: Vec<Node>,
}

/// What a number of a line stands for, with its range where it has one.
#[derive(Clone, Copy, Debug, PartialEq, Eq)]
pub enum Class {
    Free,
    Range(u64, u64),
    FloatWidth,
    Type,
    Storage,
    Place,
    Node,
}

/// A line's form: its kind, its word (empty where it has none), its numbers.
pub struct Form<'a> {
    pub kind: u8,
    pub word: &'a [u8],
    pub numbers: Vec<(Class, u64)>,
}

impl Form<'_> {
    /// The form of a line without its line feed; `None` is refusal 2.
    pub fn of(line: &[u8]) -> Option<Form<'_>> {
        let mut fields = line.split(|&byte| byte == b',');
        let kind = match fields.next()? {
            [kind] => *kind,
            _ => return None,
        };
        let mut fields: Vec<&[u8]> = fields.collect();
        let mut classes = Vec::new();
        let mut word: &[u8] = b"";
        match kind {
            b't' | b'p' => {
                word = fields.first().copied()?;
                fields.remove(0);
            }
            b'n' => {
                word = fields.get(1).copied()?;
                fields.remove(1);
                classes.push(Class::Type);
            }
            _ => {}
        }
        let listed = match (kind, word) {
            (b't', b"struct" | b"tuple") => Some(Class::Type),
            (b'n', b"aggregate") => Some(Class::Node),
            _ => None,
        };
        match listed {
            Some(class) => classes.resize(fields.len().max(classes.len()), class),
            None => classes.extend(plain_classes(kind, word)?),
        }
        if classes.len() != fields.len() {
            return None;
        }
        let numbers = classes
            .into_iter()
            .zip(fields)
            .map(|(class, field)| Some((class, number(field)?)))
            .collect::<Option<_>>()?;
        Some(Form {
            kind,
            word,
            numbers,
        })
    }

    fn at(&self, index: usize) -> u64 {
        self.numbers[index].1
    }

    /// A number that has been tested, as an index.
    fn index(&self, index: usize) -> usize {
        self.at(index) as usize
    }

    fn indices(&self, from: usize) -> Vec<usize> {
        self.numbers[from..].iter().map(|n| n.1 as usize).collect()
    }

    fn of_class(&self, class: Class) -> impl Iterator<Item = usize> + '_ {
        self.numbers
            .iter()
            .filter(move |number| number.0 == class)
            .map(|number| number.1 as usize)
    }
}

/// The classes of a form with a fixed number of fields, behind an `n` line's
/// TYPE. `None` for an unknown word or kind.
fn plain_classes(kind: u8, word: &[u8]) -> Option<Vec<Class>> {
    use Class::*;
    let few = Range(0, FEW);
    let op = |last| Range(0, last);
    Some(match (kind, word) {
        (b'f', _) => vec![few, few],
        (b't', b"unit" | b"bool" | b"pointer") => vec![],
        (b't', b"bits") => vec![Range(1, 64)],
        (b't', b"float") => vec![FloatWidth],
        (b't', b"array") => vec![Type, few],
        (b't', b"opaque") => vec![few],
        (b's', _) => vec![Range(0, 3), Free, Range(0, 1), Range(0, 511)],
        (b'v' | b'g', _) => vec![Storage, few, Type, Range(0, 1)],
        (b'p', b"variable" | b"static") => vec![Free],
        (b'p', b"field") => vec![Place, Free],
        (b'p', b"element" | b"offset") => vec![Place, Node],
        (b'n', b"bool") => vec![Range(0, 1)],
        (b'n', b"int" | b"f64") => vec![Free],
        (b'n', b"f32") => vec![Range(0, u32::MAX as u64)],
        (b'n', b"null") => vec![],
        (b'n', b"staticaddress") => vec![Free, few],
        (b'n', b"function") => vec![few],
        (b'n', b"read" | b"address") => vec![Place],
        (b'n', b"unary") => vec![op(4), Node],
        (b'n', b"binary") => vec![op(18), Node, Node],
        (b'n', b"funary") => vec![Node],
        (b'n', b"fbinary" | b"offset") => vec![Node, Node],
        (b'n', b"compare") => vec![op(15), Node, Node],
        (b'n', b"convert") => vec![op(13), Node],
        (b'n', b"select") => vec![Node, Node, Node],
        (b'n', b"extract") => vec![Node, Free],
        (b'n', b"insert") => vec![Node, Free, Node],
        _ => return None,
    })
}

/// Decimal without leading zeros, below 2^64.
fn number(field: &[u8]) -> Option<u64> {
    if field.is_empty() || (field[0] == b'0' && field.len() > 1) {
        return None;
    }
    field.iter().try_fold(0u64, |value, byte| {
        let digit = byte.is_ascii_digit().then(|| u64::from(byte - b'0'))?;
        value.checked_mul(10)?.checked_add(digit)
    })
}

/// A `p` or `n` line that has been read.
struct Used {
    line: usize,
    depth: usize,
    referred: bool,
}

#[derive(Default)]
struct Reader {
    ticket: Ticket,
    /// The kind that a line may not come before; 0 before the first line.
    order: u8,
    weights: Vec<usize>,
    type_depths: Vec<usize>,
    places: Vec<Used>,
    nodes: Vec<Used>,
    sum_of_sizes: usize,
    sum_of_weights: usize,
}

/// Reads a ticket.
pub fn read(text: &[u8]) -> Result<Ticket, Refusal> {
    if text.len() > TEXT_BYTES {
        return Err(Refusal::new(1, 0));
    }
    let mut reader = Reader::default();
    let mut count = 0;
    for line in text.split_inclusive(|&byte| byte == b'\n') {
        count += 1;
        reader
            .line(line, count)
            .map_err(|number| Refusal::new(number, count))?;
    }
    reader.end(count)?;
    Ok(reader.ticket)
}

impl Reader {
    /// Reads one line; its first refusal in the table's order.
    fn line(&mut self, line: &[u8], count: usize) -> Result<(), u8> {
        let line = line.strip_suffix(b"\n").ok_or(2)?;
        let form = Form::of(line).ok_or(2)?;
        let order = match form.kind {
            b'f' => 1,
            b't' => 2,
            b's' => 3,
            b'v' => 4,
            b'g' => 5,
            _ => 6,
        };
        let in_order = match self.order {
            0 => order == 1,
            last => order >= last && order != 1,
        };
        if !in_order {
            return Err(2);
        }
        self.order = order;

        let (before, limit) = match form.kind {
            b't' => (self.ticket.types.len(), TYPE_LINES),
            b's' => (self.ticket.storages.len(), STORAGE_LINES),
            b'v' => (self.ticket.variables.len(), VARIABLE_LINES),
            b'g' => (self.ticket.statics.len(), STATIC_LINES),
            b'p' => (self.ticket.places.len(), PLACE_LINES),
            b'n' => (self.ticket.nodes.len(), NODE_LINES),
            _ => (0, 1),
        };
        if before >= limit {
            return Err(8);
        }
        if !in_range(&form) {
            return Err(3);
        }
        if !form.numbers.iter().all(|&(class, value)| {
            self.earlier(class)
                .is_none_or(|earlier| value < earlier as u64)
        }) {
            return Err(4);
        }
        match form.kind {
            b'f' => {
                self.ticket.function = form.at(0);
                self.ticket.next = form.index(1);
                Ok(())
            }
            b't' => self.type_line(&form),
            _ if self.ticket.types.len() < 2 => Err(5),
            b's' => {
                self.ticket.storages.push(Storage {
                    kind: form.at(0),
                    length: form.index(1),
                    of_function: form.at(2) == 1,
                    regions: form.at(3),
                });
                Ok(())
            }
            b'v' => {
                self.ticket.variables.push(location(&form));
                Ok(())
            }
            b'g' => {
                self.ticket.statics.push(location(&form));
                Ok(())
            }
            _ => self.tree_line(&form, count),
        }
    }

    /// How many lines a reference of this class can name.
    fn earlier(&self, class: Class) -> Option<usize> {
        match class {
            Class::Type => Some(self.ticket.types.len()),
            Class::Storage => Some(self.ticket.storages.len()),
            Class::Place => Some(self.ticket.places.len()),
            Class::Node => Some(self.ticket.nodes.len()),
            _ => None,
        }
    }

    fn type_line(&mut self, form: &Form) -> Result<(), u8> {
        let ty = match form.word {
            b"unit" => Type::Unit,
            b"bool" => Type::Bool,
            b"bits" => Type::Bits(form.at(0)),
            b"float" => Type::Float(form.at(0)),
            b"pointer" => Type::Pointer,
            b"array" => Type::Array(form.index(0), form.index(1)),
            b"struct" => Type::Struct(form.indices(0)),
            b"tuple" => Type::Tuple(form.indices(0)),
            _ => Type::Opaque(form.index(0)),
        };
        let fixed = match self.ticket.types.len() {
            0 => ty == Type::Bool,
            1 => ty == Type::Pointer,
            _ => true,
        };
        if !fixed || self.ticket.types.contains(&ty) {
            return Err(5);
        }
        let sizes = &self.ticket.sizes;
        let (size, weight) = match &ty {
            Type::Unit => (0, 1),
            Type::Bool => (1, 1),
            Type::Bits(width) => ((*width as usize).div_ceil(8), 1),
            Type::Float(width) => (*width as usize / 8, 1),
            Type::Pointer => (2, 1),
            Type::Array(element, length) => (
                sizes[*element] * length,
                1 + self.weights[*element] * length,
            ),
            Type::Struct(fields) | Type::Tuple(fields) => (
                fields.iter().map(|&field| sizes[field]).sum(),
                1 + fields
                    .iter()
                    .map(|&field| self.weights[field])
                    .sum::<usize>(),
            ),
            Type::Opaque(length) => (*length, 1),
        };
        if size > 1_024 || weight > 4_096 {
            return Err(6);
        }
        let depth = 1 + form
            .of_class(Class::Type)
            .map(|ty| self.type_depths[ty])
            .max()
            .unwrap_or(0);
        if depth > 16 {
            return Err(9);
        }
        self.ticket.types.push(ty);
        self.ticket.sizes.push(size);
        self.weights.push(weight);
        self.type_depths.push(depth);
        Ok(())
    }

    /// A `p` or `n` line.
    fn tree_line(&mut self, form: &Form, line: usize) -> Result<(), u8> {
        let mut depth = 1;
        for &(class, value) in &form.numbers {
            let used = match class {
                Class::Place => &mut self.places[value as usize],
                Class::Node => &mut self.nodes[value as usize],
                _ => continue,
            };
            if used.referred {
                return Err(7);
            }
            used.referred = true;
            depth = depth.max(1 + used.depth);
        }
        if depth > 64 {
            return Err(9);
        }
        let used = Used {
            line,
            depth,
            referred: false,
        };
        if form.kind == b'p' {
            self.places.push(used);
            self.ticket.places.push(place(form));
            return Ok(());
        }
        let ty = form.index(0);
        self.sum_of_sizes += self.ticket.sizes[ty];
        self.sum_of_weights += self.weights[ty];
        if self.sum_of_sizes > SIZE_SUM || self.sum_of_weights > WEIGHT_SUM {
            return Err(10);
        }
        self.nodes.push(used);
        self.ticket.nodes.push(Node {
            ty,
            kind: kind(form),
            line,
        });
        Ok(())
    }

    /// The refusals of the text's end.
    fn end(&self, lines: usize) -> Result<(), Refusal> {
        let inner = self.nodes.split_last().map_or(&[][..], |(_, inner)| inner);
        let left_over = self
            .places
            .iter()
            .chain(inner)
            .filter(|used| !used.referred)
            .map(|used| used.line)
            .min();
        match left_over {
            Some(line) => Err(Refusal::new(7, line)),
            None if self.nodes.is_empty() => Err(Refusal::new(2, lines + 1)),
            None => Ok(()),
        }
    }
}

/// Refusal 3, with the two ranges that hang on another number of the line.
fn in_range(form: &Form) -> bool {
    let plain = form.numbers.iter().all(|&(class, value)| match class {
        Class::Range(least, greatest) => (least..=greatest).contains(&value),
        Class::FloatWidth => value == 32 || value == 64,
        _ => true,
    });
    plain
        && match form.kind {
            b's' if form.at(0) == 2 => (1..=FEW).contains(&form.at(1)),
            b's' => form.at(1) == 0,
            b'v' | b'g' => form.at(3) == 0 || form.at(2) == 0,
            _ => true,
        }
}

fn location(form: &Form) -> Location {
    Location {
        storage: form.index(0),
        offset: form.index(1),
        ty: form.index(2),
        bit: form.at(3) == 1,
    }
}

fn place(form: &Form) -> Place {
    match form.word {
        b"variable" => Place::Variable(form.at(0)),
        b"static" => Place::Static(form.at(0)),
        b"field" => Place::Field(form.index(0), form.at(1)),
        b"element" => Place::Element(form.index(0), form.index(1)),
        _ => Place::Offset(form.index(0), form.index(1)),
    }
}

fn kind(form: &Form) -> Kind {
    match form.word {
        b"bool" => Kind::Bool(form.at(1) == 1),
        b"int" => Kind::Int(form.at(1)),
        b"f32" => Kind::Float32(form.at(1)),
        b"f64" => Kind::Float64(form.at(1)),
        b"null" => Kind::Null,
        b"staticaddress" => Kind::StaticAddress(form.at(1), form.index(2)),
        b"function" => Kind::Function(form.at(1)),
        b"read" => Kind::Read(form.index(1)),
        b"unary" => Kind::Unary(form.at(1), form.index(2)),
        b"binary" => Kind::Binary(form.at(1), form.index(2), form.index(3)),
        b"funary" => Kind::FloatUnary(form.index(1)),
        b"fbinary" => Kind::FloatBinary(form.index(1), form.index(2)),
        b"compare" => Kind::Compare(form.at(1), form.index(2), form.index(3)),
        b"convert" => Kind::Convert(form.at(1), form.index(2)),
        b"select" => Kind::Select(form.index(1), form.index(2), form.index(3)),
        b"address" => Kind::Address(form.index(1)),
        b"offset" => Kind::Offset(form.index(1), form.index(2)),
        b"aggregate" => Kind::Aggregate(form.indices(1)),
        b"extract" => Kind::Extract(form.index(1), form.at(2)),
        _ => Kind::Insert(form.index(1), form.at(2), form.index(3)),
    }
}
