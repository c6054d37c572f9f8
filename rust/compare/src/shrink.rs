//! Looks for a smaller ticket that still shows a difference.

use original::ticket::{Class, Form};
use std::time::{Duration, Instant};

/// How long it looks at most.
const TIME: Duration = Duration::from_secs(20);

/// The smallest ticket found that fails, going down greedily.
pub fn shrink(ticket: &[u8], mut fails: impl FnMut(&[u8]) -> bool) -> Vec<u8> {
    let start = Instant::now();
    let mut best = ticket.to_vec();
    loop {
        let smaller = candidates(&best)
            .filter(|candidate| (candidate.len(), candidate) < (best.len(), &best))
            .take_while(|_| start.elapsed() < TIME)
            .find(|candidate| fails(candidate));
        match smaller {
            Some(candidate) => best = candidate,
            None => return best,
        }
    }
}

/// Smaller tickets, those that drop most first.
fn candidates(ticket: &[u8]) -> impl Iterator<Item = Vec<u8>> + '_ {
    let lines = Lines::of(ticket);
    let by_form = lines.into_iter().flat_map(|lines| {
        STEPS.iter().flat_map(move |step| {
            let lines = lines.clone();
            (0..lines.0.len())
                .rev()
                .flat_map(move |at| step(&lines, at))
        })
    });
    by_form
        .map(|lines| lines.text())
        .chain(without_text(ticket))
}

/// Smaller tickets by a change at one line.
type Step = fn(&Lines, usize) -> Vec<Lines>;

const STEPS: [Step; 6] = [
    Lines::with_leaf,
    Lines::with_operand,
    Lines::rooted,
    Lines::without_line,
    Lines::with_shorter_list,
    Lines::with_smaller_number,
];

/// The text without a run of lines, or without a run of bytes.
fn without_text(ticket: &[u8]) -> impl Iterator<Item = Vec<u8>> + '_ {
    let lines: Vec<&[u8]> = ticket.split_inclusive(|&byte| byte == b'\n').collect();
    let count = lines.len();
    let halves = |length: usize| {
        std::iter::successors(Some(length / 2), |run| Some(run / 2)).take_while(|&run| run > 0)
    };
    let line_runs: Vec<Vec<u8>> = halves(2 * count)
        .flat_map(|run| (0..count).step_by(run).map(move |at| (at, run)))
        .map(|(at, run)| {
            [&lines[..at], &lines[(at + run).min(count)..]]
                .concat()
                .concat()
        })
        .collect();
    let bytes = ticket.len();
    let byte_runs = halves(bytes)
        .filter(move |&run| bytes / run <= 2_000)
        .flat_map(move |run| (0..bytes).step_by(run).map(move |at| (at, run)))
        .map(move |(at, run)| [&ticket[..at], &ticket[(at + run).min(bytes)..]].concat());
    line_runs.into_iter().chain(byte_runs)
}

/// A line in its form.
#[derive(Clone)]
struct Line {
    kind: u8,
    word: String,
    numbers: Vec<(Class, u64)>,
}

impl Line {
    fn text(&self) -> String {
        let mut fields: Vec<String> = self.numbers.iter().map(|n| n.1.to_string()).collect();
        match self.kind {
            b't' | b'p' => fields.insert(0, self.word.clone()),
            b'n' => fields.insert(1, self.word.clone()),
            _ => {}
        }
        fields.insert(0, char::from(self.kind).to_string());
        fields.join(",") + "\n"
    }

    /// The kind of line that the number at an index names.
    fn names(&self, index: usize) -> Option<u8> {
        match (self.numbers[index].0, self.kind, self.word.as_str()) {
            (Class::Type, ..) => Some(b't'),
            (Class::Storage, ..) => Some(b's'),
            (Class::Place, ..) => Some(b'p'),
            (Class::Node, ..) => Some(b'n'),
            (Class::Free, b'p', "variable") => Some(b'v'),
            (Class::Free, b'p', "static") => Some(b'g'),
            (Class::Free, b'n', "staticaddress") => Some(b'g'),
            _ => None,
        }
    }
}

/// A ticket each line of which has a form.
#[derive(Clone)]
struct Lines(Vec<Line>);

impl Lines {
    fn of(ticket: &[u8]) -> Option<Self> {
        let text = ticket.strip_suffix(b"\n")?;
        text.split(|&byte| byte == b'\n')
            .map(|line| {
                let form = Form::of(line)?;
                Some(Line {
                    kind: form.kind,
                    word: String::from_utf8(form.word.to_vec()).ok()?,
                    numbers: form.numbers,
                })
            })
            .collect::<Option<_>>()
            .map(Self)
    }

    fn text(&self) -> Vec<u8> {
        self.0
            .iter()
            .map(Line::text)
            .collect::<String>()
            .into_bytes()
    }

    /// The ticket without some lines, the rest renumbered; none where a line
    /// that stays names one that goes.
    fn without(&self, goes: &[bool]) -> Option<Self> {
        let mut numbers: [Vec<Option<u64>>; 256] = std::array::from_fn(|_| Vec::new());
        let mut counts = [0u64; 256];
        for (line, goes) in self.0.iter().zip(goes) {
            let kind = usize::from(line.kind);
            numbers[kind].push((!goes).then_some(counts[kind]));
            counts[kind] += u64::from(!goes);
        }
        let mut lines = Vec::new();
        for (line, _) in self.0.iter().zip(goes).filter(|(_, goes)| !**goes) {
            let mut line = line.clone();
            for index in 0..line.numbers.len() {
                if let Some(kind) = line.names(index) {
                    let old = line.numbers[index].1 as usize;
                    if let Some(new) = numbers[usize::from(kind)].get(old) {
                        line.numbers[index].1 = (*new)?;
                    }
                }
            }
            lines.push(line);
        }
        Some(Self(lines))
    }

    /// Only those `p` and `n` lines that the node in a line needs.
    fn kept_for(&self, root: usize) -> Option<Self> {
        let of_kind = |kind: u8| -> Vec<usize> {
            (0..self.0.len())
                .filter(|&at| self.0[at].kind == kind)
                .collect()
        };
        let (places, nodes) = (of_kind(b'p'), of_kind(b'n'));
        let mut needed = vec![false; self.0.len()];
        let mut todo = vec![root];
        while let Some(at) = todo.pop() {
            needed[at] = true;
            let line = &self.0[at];
            for index in 0..line.numbers.len() {
                let number = line.numbers[index].1 as usize;
                match line.names(index) {
                    Some(b'p') => todo.push(*places.get(number)?),
                    Some(b'n') => todo.push(*nodes.get(number)?),
                    _ => {}
                }
            }
            if todo.len() > self.0.len() {
                return None;
            }
        }
        let goes: Vec<bool> = (0..self.0.len())
            .map(|at| matches!(self.0[at].kind, b'p' | b'n') && !needed[at])
            .collect();
        self.without(&goes)
    }

    /// The last node's line.
    fn root(&self) -> Option<usize> {
        self.0.iter().rposition(|line| line.kind == b'n')
    }

    /// The ticket with only what its root needs.
    fn pruned(&self) -> Option<Self> {
        self.kept_for(self.root()?)
    }

    /// A node made a leaf.
    fn with_leaf(&self, at: usize) -> Vec<Self> {
        if self.0[at].kind != b'n' {
            return Vec::new();
        }
        [("null", None), ("int", Some(0)), ("bool", Some(0))]
            .into_iter()
            .filter_map(|(word, value)| {
                let mut lines = self.clone();
                let line = &mut lines.0[at];
                line.word = word.into();
                line.numbers.truncate(1);
                line.numbers.extend(value.map(|value| (Class::Free, value)));
                lines.pruned()
            })
            .collect()
    }

    /// One of a node's operands, or of a place's base, in its stead.
    fn with_operand(&self, at: usize) -> Vec<Self> {
        let kind = self.0[at].kind;
        if !matches!(kind, b'p' | b'n') {
            return Vec::new();
        }
        let number = self.0[..at].iter().filter(|line| line.kind == kind).count() as u64;
        let operands = (0..self.0[at].numbers.len())
            .filter(|&index| self.0[at].names(index) == Some(kind))
            .map(|index| self.0[at].numbers[index].1);
        operands
            .filter_map(|operand| {
                let mut lines = self.clone();
                for line in &mut lines.0[at + 1..] {
                    for index in 0..line.numbers.len() {
                        if line.names(index) == Some(kind) && line.numbers[index].1 == number {
                            line.numbers[index].1 = operand;
                        }
                    }
                }
                lines.pruned()
            })
            .collect()
    }

    /// A node as the root.
    fn rooted(&self, at: usize) -> Vec<Self> {
        match self.0[at].kind {
            b'n' => self.kept_for(at).into_iter().collect(),
            _ => Vec::new(),
        }
    }

    /// A line dropped, where no other names it.
    fn without_line(&self, at: usize) -> Vec<Self> {
        let goes: Vec<bool> = (0..self.0.len()).map(|line| line == at).collect();
        self.without(&goes).into_iter().collect()
    }

    /// An item of a list dropped.
    fn with_shorter_list(&self, at: usize) -> Vec<Self> {
        let first = match self.0[at].word.as_str() {
            "aggregate" => 1,
            "struct" | "tuple" => 0,
            _ => return Vec::new(),
        };
        (first..self.0[at].numbers.len())
            .filter_map(|item| {
                let mut lines = self.clone();
                lines.0[at].numbers.remove(item);
                lines.pruned()
            })
            .collect()
    }

    /// A number made smaller.
    fn with_smaller_number(&self, at: usize) -> Vec<Self> {
        let mut all = Vec::new();
        for index in 0..self.0[at].numbers.len() {
            let number = self.0[at].numbers[index].1;
            for smaller in [0, 1, number / 2, number.saturating_sub(1)] {
                if smaller < number {
                    let mut lines = self.clone();
                    lines.0[at].numbers[index].1 = smaller;
                    all.push(lines);
                }
            }
        }
        all
    }
}

#[cfg(test)]
mod tests {
    use super::*;
    use original::answer;
    use tickets::{Kind, Rng};

    /// The listing has these words, in a ticket that shrinks far.
    #[test]
    fn finds_a_small_ticket() {
        let has = |ticket: &[u8], word: &str| {
            let printed = String::from_utf8(answer(ticket, 1 << 20).printed()).unwrap();
            printed.contains(word)
        };
        let mut rng = Rng::new(5);
        for word in ["i,selbyte", "i,compare", "i,sext", "i,address"] {
            let ticket = std::iter::repeat_with(|| Kind::Deep.ticket(&mut rng))
                .find(|ticket| has(ticket, word))
                .unwrap();
            let small = shrink(&ticket, |ticket| has(ticket, word));
            assert!(has(&small, word));
            assert!(small.len() < 100, "{}", small.escape_ascii());
        }
    }

    /// Text of no form shrinks by its bytes.
    #[test]
    fn finds_a_small_text() {
        let small = shrink(b"f,0,0\nt,bool\nt,poi!nter\n", |text| text.contains(&b'!'));
        assert_eq!(small, b"!");
    }
}
