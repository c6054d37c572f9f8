//! Builds readable tickets from the leaves up.

use crate::Rng;

/// How a ticket is to be.
pub struct Style {
    /// How often in a hundred a choice ignores the types.
    wild: usize,
    depth: usize,
    nodes: usize,
}

impl Style {
    pub fn new(wild: usize, depth: usize, nodes: usize) -> Self {
        Self { wild, depth, nodes }
    }
}

#[derive(Clone, PartialEq, Eq)]
enum Type {
    Unit,
    Bool,
    Bits(usize),
    Float(usize),
    Pointer,
    Array(usize, usize),
    Struct(Vec<usize>),
    Tuple(Vec<usize>),
    Opaque(usize),
}

const BOOL: usize = 0;
const POINTER: usize = 1;
const OPS: [(&str, usize); 4] = [
    ("unary", 5),
    ("binary", 19),
    ("compare", 16),
    ("convert", 14),
];

struct Location {
    ty: usize,
    line: String,
}

/// Lines by kind. `p` and `n` lines are mixed as they are made.
pub struct Builder<'r> {
    rng: &'r mut Rng,
    style: Style,
    types: Vec<Type>,
    storages: Vec<String>,
    variables: Vec<Location>,
    statics: Vec<Location>,
    tree: Vec<String>,
    places: usize,
    nodes: usize,
    /// Sums over nodes, to stay within 2,048 for most tickets.
    sizes: usize,
    weights: usize,
}

/// One operation over reads and constants.
pub fn single(rng: &mut Rng, plain_widths: bool) -> Vec<u8> {
    let mut builder = Builder::new(rng, Style::new(0, 2, 3));
    let width = |builder: &mut Builder| {
        let width = match plain_widths {
            true => builder.rng.pick(&[8, 16, 32, 64]),
            false => builder.rng.range(1, 64),
        };
        builder.intern(Type::Bits(width))
    };
    let bits = width(&mut builder);
    match builder.rng.below(4) {
        0 => builder.unary(bits, 1),
        1 => builder.binary(bits, 1),
        2 => builder.compare(bits, 1),
        _ => {
            let other = width(&mut builder);
            let (wide, narrow) = match (&builder.types[bits], &builder.types[other]) {
                (Type::Bits(a), Type::Bits(b)) if a < b => (other, bits),
                _ => (bits, other),
            };
            let (op, from, to) = match builder.rng.below(6) {
                0 => (0, wide, narrow),
                1 => (1, narrow, wide),
                2 => (2, narrow, wide),
                3 => (11, bits, bits),
                4 => (12, BOOL, bits),
                _ => (13, bits, BOOL),
            };
            let operand = builder.leaf(from);
            builder.node(to, &format!("convert,{op},{operand}"))
        }
    };
    builder.text()
}

impl<'r> Builder<'r> {
    pub fn new(rng: &'r mut Rng, style: Style) -> Self {
        let mut builder = Self {
            rng,
            style,
            types: vec![Type::Bool, Type::Pointer],
            storages: Vec::new(),
            variables: Vec::new(),
            statics: Vec::new(),
            tree: Vec::new(),
            places: 0,
            nodes: 0,
            sizes: 0,
            weights: 0,
        };
        for _ in 0..builder.rng.below(5) {
            builder.any_type(2);
        }
        builder
    }

    /// A whole ticket.
    pub fn ticket(mut self) -> Vec<u8> {
        let ty = self.any_type(2);
        let depth = self.rng.range(1, self.style.depth);
        self.expression(ty, depth);
        self.text()
    }

    fn text(self) -> Vec<u8> {
        let mut text = format!("f,{},{}\n", self.rng.below(65_536), self.rng.below(65_536));
        for ty in &self.types {
            let fields = |name: &str, fields: &[usize]| {
                fields
                    .iter()
                    .fold(name.to_string(), |line, field| format!("{line},{field}"))
            };
            let line = match ty {
                Type::Unit => "unit".to_string(),
                Type::Bool => "bool".to_string(),
                Type::Bits(width) => format!("bits,{width}"),
                Type::Float(width) => format!("float,{width}"),
                Type::Pointer => "pointer".to_string(),
                Type::Array(element, length) => format!("array,{element},{length}"),
                Type::Struct(list) => fields("struct", list),
                Type::Tuple(list) => fields("tuple", list),
                Type::Opaque(length) => format!("opaque,{length}"),
            };
            text += &format!("t,{line}\n");
        }
        for line in &self.storages {
            text += &format!("s,{line}\n");
        }
        for variable in &self.variables {
            text += &format!("v,{}\n", variable.line);
        }
        for variable in &self.statics {
            text += &format!("g,{}\n", variable.line);
        }
        for line in &self.tree {
            text += line;
            text.push('\n');
        }
        text.into_bytes()
    }

    fn intern(&mut self, ty: Type) -> usize {
        match self.types.iter().position(|known| *known == ty) {
            Some(number) => number,
            None => {
                self.types.push(ty);
                self.types.len() - 1
            }
        }
    }

    fn size(&self, ty: usize) -> usize {
        match &self.types[ty] {
            Type::Unit => 0,
            Type::Bool => 1,
            Type::Bits(width) => width.div_ceil(8),
            Type::Float(width) => width / 8,
            Type::Pointer => 2,
            Type::Array(element, length) => self.size(*element) * length,
            Type::Struct(fields) | Type::Tuple(fields) => {
                fields.iter().map(|&field| self.size(field)).sum()
            }
            Type::Opaque(length) => *length,
        }
    }

    fn weight(&self, ty: usize) -> usize {
        match &self.types[ty] {
            Type::Array(element, length) => 1 + self.weight(*element) * length,
            Type::Struct(fields) | Type::Tuple(fields) => {
                1 + fields
                    .iter()
                    .map(|&field| self.weight(field))
                    .sum::<usize>()
            }
            _ => 1,
        }
    }

    fn bits(&mut self) -> usize {
        // Few types, so that variables are read again.
        let known: Vec<usize> = (0..self.types.len())
            .filter(|&ty| matches!(self.types[ty], Type::Bits(_)))
            .collect();
        if known.len() > 5 && self.rng.chance(80) {
            return self.rng.pick(&known);
        }
        let width = match self.rng.below(3) {
            0 => self.rng.range(1, 64),
            1 => self.rng.pick(&[7, 8, 9, 15, 16, 17, 31, 32, 33, 63, 64]),
            _ => self.rng.pick(&[8, 16, 32, 64]),
        };
        self.intern(Type::Bits(width))
    }

    fn any_type(&mut self, depth: usize) -> usize {
        let plain = self.rng.chance(70) || depth == 0 || self.types.len() > 200;
        if plain {
            let bits = self.bits();
            let rare = match self.rng.below(6) {
                0 => Type::Unit,
                1 => Type::Float(self.rng.pick(&[32, 64])),
                _ => Type::Opaque(self.rng.pick(&[0, 1, 2, 3, 8, 16, 17, 20])),
            };
            return match self.rng.below(10) {
                0..=4 => bits,
                5..=6 => BOOL,
                7..=8 => POINTER,
                _ => self.intern(rare),
            };
        }
        if self.rng.chance(35) {
            let element = self.any_type(depth - 1);
            let length = self.rng.below(5);
            return self.small(Type::Array(element, length));
        }
        let fields = (0..self.rng.below(5))
            .map(|_| self.any_type(depth - 1))
            .collect();
        let ty = match self.rng.chance(50) {
            true => Type::Struct(fields),
            false => Type::Tuple(fields),
        };
        self.small(ty)
    }

    /// The type, or bool where it would be large.
    fn small(&mut self, ty: Type) -> usize {
        let number = self.intern(ty);
        match self.size(number) <= 200 && self.weight(number) <= 200 {
            true => number,
            false => BOOL,
        }
    }

    fn is_wild(&mut self) -> bool {
        let wild = self.style.wild;
        self.rng.chance(wild)
    }

    fn node(&mut self, ty: usize, rest: &str) -> usize {
        let ty = match self.is_wild() && self.rng.chance(30) {
            true => self.rng.below(self.types.len()),
            false => ty,
        };
        self.sizes += self.size(ty);
        self.weights += self.weight(ty);
        self.tree.push(format!("n,{ty},{rest}"));
        self.nodes += 1;
        self.nodes - 1
    }

    fn place_line(&mut self, rest: &str) -> usize {
        self.tree.push(format!("p,{rest}"));
        self.places += 1;
        self.places - 1
    }

    /// Whether a node of the type, with operands like it, is too much.
    fn is_full(&self, ty: usize) -> bool {
        self.nodes + 8 > self.style.nodes
            || self.sizes + 4 * self.size(ty) > 1_900
            || self.weights + 4 * self.weight(ty) > 1_900
    }

    fn expression(&mut self, ty: usize, depth: usize) -> usize {
        if depth <= 1 || self.is_full(ty) || self.places > 200 {
            return self.leaf(ty);
        }
        if self.is_wild() {
            return self.wild_node(ty, depth - 1);
        }
        let below = depth - 1;
        if self.rng.chance(8) {
            return self.select(ty, below);
        }
        if self.rng.chance(4) {
            return self.extract(ty, below);
        }
        if self.rng.chance(3) {
            let operand = self.expression(ty, below);
            return self.node(ty, &format!("convert,11,{operand}"));
        }
        match self.types[ty].clone() {
            Type::Bool => match self.rng.below(4) {
                0 => self.leaf(ty),
                1 => {
                    let bits = self.bits();
                    let operand = self.expression(bits, below);
                    self.node(ty, &format!("convert,13,{operand}"))
                }
                _ => {
                    let bits = self.bits();
                    self.compare(bits, below)
                }
            },
            Type::Bits(width) => match self.rng.below(10) {
                0 => self.leaf(ty),
                1..=2 => self.unary(ty, below),
                3..=7 => self.binary(ty, below),
                _ => self.conversion(ty, width, below),
            },
            Type::Pointer => match self.rng.below(4) {
                0 => self.leaf(ty),
                1 => {
                    let from = self.intern(Type::Bits(16));
                    let operand = self.expression(from, below);
                    self.node(ty, &format!("convert,11,{operand}"))
                }
                _ => {
                    let base = self.expression(ty, below);
                    let bits = self.bits();
                    let offset = self.expression(bits, below);
                    self.node(ty, &format!("offset,{base},{offset}"))
                }
            },
            Type::Array(element, length) => self.aggregate(ty, &vec![element; length], below),
            Type::Struct(fields) | Type::Tuple(fields) => self.aggregate(ty, &fields, below),
            Type::Unit | Type::Float(_) | Type::Opaque(_) => self.leaf(ty),
        }
    }

    fn unary(&mut self, ty: usize, depth: usize) -> usize {
        let op = self.rng.below(5);
        let operand = self.expression(ty, depth);
        self.node(ty, &format!("unary,{op},{operand}"))
    }

    fn binary(&mut self, ty: usize, depth: usize) -> usize {
        let op = self.rng.below(19);
        let left = self.expression(ty, depth);
        // Constant distances, which a byte's rotate looks at.
        let right = match (10..=14).contains(&op) && self.rng.chance(50) {
            true => {
                let distance = self.rng.pick(&[0, 1, 3, 4, 5, 6, 7, 8, 9, 12, 63, 64, 255]);
                self.node(ty, &format!("int,{distance}"))
            }
            false => self.expression(ty, depth),
        };
        self.node(ty, &format!("binary,{op},{left},{right}"))
    }

    fn compare(&mut self, bits: usize, depth: usize) -> usize {
        let op = self.rng.below(10);
        let left = self.expression(bits, depth);
        let right = self.expression(bits, depth);
        self.node(BOOL, &format!("compare,{op},{left},{right}"))
    }

    /// A conversion to bits of a width.
    fn conversion(&mut self, ty: usize, width: usize, depth: usize) -> usize {
        let (op, from) = match self.rng.below(4) {
            0 => (0, Type::Bits(self.rng.range(width, 64))),
            1 => (1, Type::Bits(self.rng.range(1, width))),
            2 => (2, Type::Bits(self.rng.range(1, width))),
            _ if width == 16 && self.rng.chance(30) => (11, Type::Pointer),
            _ => (12, Type::Bool),
        };
        let from = self.intern(from);
        let operand = self.expression(from, depth);
        self.node(ty, &format!("convert,{op},{operand}"))
    }

    fn select(&mut self, ty: usize, depth: usize) -> usize {
        let when_true = self.expression(ty, depth);
        let when_false = self.expression(ty, depth);
        let condition = match self.rng.chance(60) {
            true => BOOL,
            false => self.bits(),
        };
        let condition = self.expression(condition, depth);
        self.node(ty, &format!("select,{when_true},{when_false},{condition}"))
    }

    fn aggregate(&mut self, ty: usize, parts: &[usize], depth: usize) -> usize {
        match self.rng.below(6) {
            0 => return self.leaf(ty),
            1 if !parts.is_empty() => {
                let index = self.rng.below(parts.len());
                let whole = self.expression(ty, depth);
                let value = self.expression(parts[index], depth);
                return self.node(ty, &format!("insert,{whole},{index},{value}"));
            }
            _ => {}
        }
        let mut rest = String::from("aggregate");
        for &part in parts {
            rest += &format!(",{}", self.expression(part, depth));
        }
        self.node(ty, &rest)
    }

    /// A part of an aggregate.
    fn extract(&mut self, ty: usize, depth: usize) -> usize {
        let (whole, index) = self.around(ty);
        if self.size(whole) > 200 || self.weight(whole) > 200 {
            return self.leaf(ty);
        }
        let operand = self.expression(whole, depth);
        self.node(ty, &format!("extract,{operand},{index}"))
    }

    /// A struct or tuple with a field of the type, and the field's index.
    fn around(&mut self, ty: usize) -> (usize, usize) {
        let count = self.rng.range(1, 3);
        let index = self.rng.below(count);
        let mut fields: Vec<usize> = (0..count).map(|_| self.any_type(0)).collect();
        fields[index] = ty;
        let whole = match self.rng.chance(50) {
            true => Type::Struct(fields),
            false => Type::Tuple(fields),
        };
        (self.intern(whole), index)
    }

    fn leaf(&mut self, ty: usize) -> usize {
        if self.rng.chance(45) {
            return self.read(ty);
        }
        match self.types[ty].clone() {
            Type::Bool => {
                let value = self.rng.below(2);
                self.node(ty, &format!("bool,{value}"))
            }
            Type::Bits(width) => {
                let value = self.value(width);
                self.node(ty, &format!("int,{value}"))
            }
            Type::Pointer => self.pointer_leaf(),
            Type::Float(width) => {
                let bits = self.rng.draw() >> (64 - width);
                self.node(ty, &format!("f{width},{bits}"))
            }
            Type::Array(_, 0) => self.node(ty, "aggregate"),
            Type::Struct(fields) | Type::Tuple(fields) if fields.is_empty() => {
                self.node(ty, "aggregate")
            }
            _ => self.read(ty),
        }
    }

    fn pointer_leaf(&mut self) -> usize {
        match self.rng.below(4) {
            0 => self.node(POINTER, "null"),
            1 => {
                let function = self.rng.below(65_536);
                self.node(POINTER, &format!("function,{function}"))
            }
            2 => {
                let ty = self.any_type(1);
                let name = self.location(ty, true);
                let offset = self.rng.pick(&[0, 1, 2, 255, 256, 65_535]);
                self.node(POINTER, &format!("staticaddress,{name},{offset}"))
            }
            _ => {
                let ty = self.any_type(1);
                let place = self.place(ty, 2);
                self.node(POINTER, &format!("address,{place}"))
            }
        }
    }

    /// A constant, mostly one that fits the width.
    fn value(&mut self, width: usize) -> u64 {
        let mask = u64::MAX >> (64 - width);
        match self.rng.below(8) {
            0 => 0,
            1 => 1,
            2 => mask,
            3 => mask / 2 + 1,
            4 => u64::from(self.rng.draw() as u8) & mask,
            5 if self.style.wild > 0 => self.rng.draw(),
            _ => self.rng.draw() & mask,
        }
    }

    fn read(&mut self, ty: usize) -> usize {
        let depth = self.rng.pick(&[0, 0, 0, 1, 2, 3]);
        let place = self.place(ty, depth);
        self.node(ty, &format!("read,{place}"))
    }

    /// A place of the type.
    fn place(&mut self, ty: usize, depth: usize) -> usize {
        self.place_or_base(ty, depth, false)
    }

    /// An offset place has no fields or elements, so it is no base of one.
    fn place_or_base(&mut self, ty: usize, depth: usize, is_base: bool) -> usize {
        let ty = match self.is_wild() && self.rng.chance(20) {
            true => self.rng.below(self.types.len()),
            false => ty,
        };
        match self.rng.below(6) {
            0 if depth > 0 => {
                let (whole, index) = self.around(ty);
                let base = self.place_or_base(whole, depth - 1, true);
                let index = match self.is_wild() && self.rng.chance(20) {
                    true => self.edge(),
                    false => index as u64,
                };
                self.place_line(&format!("field,{base},{index}"))
            }
            1 if depth > 0 => {
                let length = self.rng.range(1, 4);
                let whole = self.intern(Type::Array(ty, length));
                let base = self.place_or_base(whole, depth - 1, true);
                let past = self.is_wild() && self.rng.chance(20);
                let index = self.rng.below(length) + if past { length } else { 0 };
                let index = self.index(index as u64);
                self.place_line(&format!("element,{base},{index}"))
            }
            2 if depth > 0 && (!is_base || self.is_wild()) => {
                let base = self.any_type(1);
                let base = self.place(base, depth - 1);
                let offset = match self.is_wild() && self.rng.chance(20) {
                    true => self.edge(),
                    false => self.rng.pick(&[0, 1, 2, 3, 255, 9_000]),
                };
                let offset = self.index(offset);
                self.place_line(&format!("offset,{base},{offset}"))
            }
            3 => {
                let name = self.location(ty, true);
                self.place_line(&format!("static,{name}"))
            }
            _ => {
                let name = self.location(ty, false);
                self.place_line(&format!("variable,{name}"))
            }
        }
    }

    /// The node of a place's index, which is not lowered.
    fn index(&mut self, value: u64) -> usize {
        let ty = self.bits();
        match self.is_wild() && self.rng.chance(20) {
            true => {
                let ty = self.any_type(1);
                self.expression(ty, 2)
            }
            false => self.node(ty, &format!("int,{value}")),
        }
    }

    /// A number that some limit is near.
    fn edge(&mut self) -> u64 {
        let near = self
            .rng
            .pick(&[0, 1, 2, 4, 64, 256, 65_535, 1 << 32, u64::MAX]);
        near.wrapping_add(self.rng.below(3) as u64).wrapping_sub(1)
    }

    /// The name of a variable or static of the type.
    fn location(&mut self, ty: usize, is_static: bool) -> u64 {
        if self.is_wild() && self.rng.chance(15) {
            return self.edge();
        }
        let known: Vec<usize> = self
            .locations(is_static)
            .iter()
            .enumerate()
            .filter(|(_, location)| location.ty == ty)
            .map(|(name, _)| name)
            .collect();
        let count = self.locations(is_static).len();
        if !known.is_empty() && (self.rng.chance(40) || count >= 20) {
            return self.rng.pick(&known) as u64;
        }
        if count >= 60 && self.style.wild > 0 {
            return self.rng.below(count) as u64;
        }
        let bit = ty == BOOL && self.rng.chance(60);
        let offset = self.rng.pick(&[0, 0, 0, 1, 2, 5, 300]);
        let storage = self.storage(bit, self.size(ty) + offset);
        let line = format!("{storage},{offset},{ty},{}", u8::from(bit));
        let location = Location { ty, line };
        match is_static {
            true => self.statics.push(location),
            false => self.variables.push(location),
        }
        count as u64
    }

    fn locations(&self, is_static: bool) -> &[Location] {
        match is_static {
            true => &self.statics,
            false => &self.variables,
        }
    }

    fn storage(&mut self, bit: bool, length: usize) -> usize {
        if !self.storages.is_empty() && (self.rng.chance(20) || self.storages.len() > 200) {
            return self.rng.below(self.storages.len());
        }
        let (kind, length) = match length {
            _ if bit => (0, 0),
            _ if self.is_wild() && self.rng.chance(20) => (3, 0),
            0 | 1 if self.rng.chance(70) => (1, 0),
            _ => (2, length.max(1)),
        };
        let owner = self.rng.below(2);
        let regions = match self.rng.chance(60) {
            true => self.rng.pick(&[36, 32, 64, 100]),
            false => self.rng.below(512),
        };
        self.storages
            .push(format!("{kind},{length},{owner},{regions}"));
        self.storages.len() - 1
    }

    /// A node of any form over operands of any types.
    fn wild_node(&mut self, ty: usize, depth: usize) -> usize {
        let any = |builder: &mut Self| {
            let ty = match builder.rng.chance(50) {
                true => builder.any_type(1),
                false => builder.rng.below(builder.types.len()),
            };
            builder.expression(ty, depth)
        };
        match self.rng.below(14) {
            0..=3 => {
                let (word, ops) = self.rng.pick(&OPS);
                let op = self.rng.below(ops);
                let first = any(self);
                match word {
                    "unary" | "convert" => self.node(ty, &format!("{word},{op},{first}")),
                    _ => {
                        let second = any(self);
                        self.node(ty, &format!("{word},{op},{first},{second}"))
                    }
                }
            }
            4 => {
                let operands = [any(self), any(self), any(self)];
                let [a, b, c] = operands;
                self.node(ty, &format!("select,{a},{b},{c}"))
            }
            5 => {
                // Often a base of too few bytes.
                let base = match self.rng.chance(40) {
                    true => {
                        let few = match self.rng.below(3) {
                            0 => Type::Opaque(0),
                            1 => Type::Bits(1),
                            _ => Type::Bits(8),
                        };
                        let few = self.intern(few);
                        self.expression(few, depth)
                    }
                    false => any(self),
                };
                let offset = any(self);
                self.node(ty, &format!("offset,{base},{offset}"))
            }
            6 => {
                let count = self.rng.below(5);
                let rest = (0..count).fold(String::from("aggregate"), |rest, _| {
                    format!("{rest},{}", any(self))
                });
                self.node(ty, &rest)
            }
            7 => {
                let whole = any(self);
                let index = self.rng.pick(&[0, 1, 2, u64::MAX]);
                self.node(ty, &format!("extract,{whole},{index}"))
            }
            8 => {
                let (whole, value) = (any(self), any(self));
                let index = self.rng.pick(&[0, 1, 2, u64::MAX]);
                self.node(ty, &format!("insert,{whole},{index},{value}"))
            }
            9 => match self.rng.chance(50) {
                true => {
                    let operand = any(self);
                    self.node(ty, &format!("funary,{operand}"))
                }
                false => {
                    let (left, right) = (any(self), any(self));
                    self.node(ty, &format!("fbinary,{left},{right}"))
                }
            },
            10 => self.node(ty, "null"),
            11 => {
                let value = self.rng.draw() >> self.rng.below(64);
                self.node(ty, &format!("int,{value}"))
            }
            12 => {
                let value = self.rng.below(2);
                self.node(ty, &format!("bool,{value}"))
            }
            _ => {
                let of = self.any_type(1);
                let place = self.place(of, 2);
                let word = self.rng.pick(&["read", "address"]);
                self.node(ty, &format!("{word},{place}"))
            }
        }
    }
}
