//! Tickets that need most stack, most room or the longest listing, the same on
//! each call: all that is nested stands at its limit.

mod deep;
mod long;
mod wide;

use crate::limits::{text, Named, LINES, NODES, SIZE, SUM, WEIGHT};
use std::sync::OnceLock;

/// Nodes and places in each other, and types in each other, at most.
const DEPTH: usize = 64;
const TYPE_DEPTH: usize = 16;
/// Lines of variables and of statics, at most.
const NAMES: usize = 64;

const BOOL: usize = 0;
const POINTER: usize = 1;

/// All of them.
pub fn worst() -> &'static [Named] {
    static ALL: OnceLock<Vec<Named>> = OnceLock::new();
    ALL.get_or_init(|| {
        let mut all = Vec::new();
        deep::nodes(&mut all);
        deep::float_nodes(&mut all);
        deep::types(&mut all);
        deep::places(&mut all);
        wide::parts(&mut all);
        wide::selects(&mut all);
        long::reads(&mut all);
        long::operations(&mut all);
        long::tables(&mut all);
        long::texts(&mut all);
        all
    })
}

/// A ticket's lines behind the first three, and how many of the numbered ones
/// there are.
#[derive(Clone)]
struct Draft {
    lines: Vec<String>,
    types: usize,
    places: usize,
    nodes: usize,
}

impl Draft {
    fn new() -> Self {
        Self {
            lines: Vec::new(),
            types: 2,
            places: 0,
            nodes: 0,
        }
    }

    fn ty(&mut self, rest: &str) -> usize {
        self.lines.push(format!("t,{rest}"));
        self.types += 1;
        self.types - 1
    }

    /// A storage with variables of the types at its front.
    fn variables(&mut self, types: &[usize]) {
        self.lines.push("s,2,65535,1,36".into());
        for ty in types {
            self.lines.push(format!("v,0,0,{ty},0"));
        }
    }

    fn place(&mut self, rest: &str) -> usize {
        self.lines.push(format!("p,{rest}"));
        self.places += 1;
        self.places - 1
    }

    fn node(&mut self, ty: usize, rest: &str) -> usize {
        self.lines.push(format!("n,{ty},{rest}"));
        self.nodes += 1;
        self.nodes - 1
    }

    /// Reads a variable of the type whole.
    fn read(&mut self, variable: usize, ty: usize) -> usize {
        let place = self.place(&format!("variable,{variable}"));
        self.node(ty, &format!("read,{place}"))
    }

    fn aggregate(&mut self, ty: usize, parts: &[usize]) -> usize {
        let list: String = parts.iter().map(|part| format!(",{part}")).collect();
        self.node(ty, &format!("aggregate{list}"))
    }

    fn text(&self) -> Vec<u8> {
        text(&self.lines)
    }
}
