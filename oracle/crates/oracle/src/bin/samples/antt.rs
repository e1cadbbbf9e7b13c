//! Text of the proof language: lists of numbers, modules of examples.

use std::fmt::Write;

// ---- lists

enum Piece {
    Numbers(Vec<u32>),
    Repeated(usize, u32),
    Counting(u32, usize),
}

fn run_of(numbers: &[u32], step: u32) -> usize {
    1 + numbers.windows(2).take_while(|pair| pair[1] == pair[0].wrapping_add(step)).count()
}

fn pieces(numbers: &[u32]) -> Vec<Piece> {
    let (mut pieces, mut at) = (Vec::new(), 0);
    while at < numbers.len() {
        let rest = &numbers[at..];
        let (repeated, counting) = (run_of(rest, 0), run_of(rest, 1));
        if repeated >= 4 {
            pieces.push(Piece::Repeated(repeated, rest[0]));
            at += repeated;
        } else if counting >= 6 {
            pieces.push(Piece::Counting(rest[0], counting));
            at += counting;
        } else {
            match pieces.last_mut() {
                Some(Piece::Numbers(run)) => run.push(rest[0]),
                _ => pieces.push(Piece::Numbers(vec![rest[0]])),
            }
            at += 1;
        }
    }
    pieces
}

/// A number: as decimal, or in hexadecimal where it has many digits.
pub fn number(value: u32) -> String {
    if value < 100_000 {
        value.to_string()
    } else {
        format!("0x{value:08x}")
    }
}

fn piece(piece: &Piece) -> String {
    match piece {
        Piece::Numbers(run) => format!("({}[])", run.iter().map(|&n| number(n) + " ∷ ").collect::<String>()),
        Piece::Repeated(times, value) => format!("replicate {times} {}", number(*value)),
        Piece::Counting(first, times) => format!("counting {first} {times}"),
    }
}

pub fn numbers(list: &[u32]) -> String {
    match pieces(list) {
        pieces if pieces.is_empty() => "[]".to_owned(),
        pieces => pieces.iter().map(piece).collect::<Vec<_>>().join(" ++ "),
    }
}

pub fn bytes(list: &[u8]) -> String {
    numbers(&list.iter().map(|&byte| byte as u32).collect::<Vec<_>>())
}

/// A list in pieces, a line for each.
pub fn lines(pieces: &[Vec<u8>]) -> String {
    pieces.iter().map(|piece| format!("\n    ++ {}", bytes(piece))).collect::<String>().replacen("++ ", "", 1)
}

/// An argument.
pub fn atom(expression: &str) -> String {
    let simple = !expression.contains(' ') || (expression.starts_with('(') && !expression.contains(" ++ "));
    if simple {
        expression.to_owned()
    } else {
        format!("({expression})")
    }
}

/// Named lists, in terms of which others are written.
#[derive(Clone, Default)]
pub struct Known(Vec<(String, Vec<u8>)>);

impl Known {
    pub fn add(&mut self, name: &str, list: &[u8]) {
        self.0.push((name.to_owned(), list.to_vec()));
    }

    /// The shortest way to write this list: by its bytes, or by what it shares with the front and the end of a known one.
    pub fn bytes(&self, list: &[u8]) -> String {
        if let Some((name, _)) = self.0.iter().find(|(_, known)| known == list) {
            return name.clone();
        }
        let shared = self.0.iter().map(|(name, known)| beside(name, known, list));
        shared.chain([bytes(list)]).min_by_key(|text| text.chars().count()).unwrap()
    }
}

/// Fewer shared bytes than this are written out.
const SHARED: usize = 8;

fn shared<'a>(pairs: impl Iterator<Item = (&'a u8, &'a u8)>) -> usize {
    match pairs.take_while(|(a, b)| a == b).count() {
        few if few < SHARED => 0,
        many => many,
    }
}

fn beside(name: &str, known: &[u8], list: &[u8]) -> String {
    let front = shared(known.iter().zip(list));
    let end = shared(known[front..].iter().rev().zip(list[front..].iter().rev()));
    if front + end == 0 {
        return bytes(list);
    }
    let mut texts = Vec::new();
    if front == known.len() {
        texts.push(name.to_owned());
    } else if front > 0 {
        texts.push(format!("take {front} {name}"));
    }
    if front + end < list.len() {
        texts.push(bytes(&list[front..list.len() - end]));
    }
    if end > 0 {
        texts.push(format!("drop {} {name}", known.len() - end));
    }
    texts.join(" ++ ")
}

// ---- modules

/// What a module may bring in, by where it stands. Only the names that its text has outside of comments are brought in.
const IMPORTS: [(&str, &[&str]); 9] = [
    (
        "Rattle.std.specs.Prelude",
        &[
            "ℕ",
            "◌≡◌",
            "refl",
            "Bool",
            "true",
            "false",
            "◌&&◌",
            "List",
            "[]",
            "◌∷◌",
            "◌++◌",
            "length",
            "take",
            "drop",
            "replicate",
            "T",
        ],
    ),
    ("Rattle.vmd_format.specs.Answer", &["Answer", "declined", "given"]),
    ("Rattle.vmd_format.specs.Read", &["lenient"]),
    ("Rattle.vmd_format.specs.Take", &["Take", "same", "read_take"]),
    ("Rattle.vmd_format.specs.Opening", &["ik_total", "smallest_frame", "largest_frame"]),
    ("Rattle.vmd_format.specs.Join", &["export_file", "join_files"]),
    ("Rattle.vmd_format.specs.Parts", &["Parts", "build"]),
    ("Rattle.vmd_format.specs.Computed", &["computed", "declines", "bytes_of", "counting"]),
    (
        "Rattle.vmd_answers.specs.Said",
        &[
            "refuses",
            "exports",
            "figures",
            "join_refuses",
            "joins",
            "parts",
            "build_refuses",
            "builds",
            "magic",
            "empty",
            "six",
            "six_out",
        ],
    ),
];

fn definition(name: &str, expression: &str) -> String {
    let space = if expression.starts_with('\n') { "" } else { " " };
    format!("abbrev pub {name} : List ℕ\n{name} ={space}{expression}")
}

pub struct Module {
    pub name: &'static str,
    comment: String,
    body: String,
    pub examples: usize,
}

impl Module {
    pub fn new(name: &'static str, comment: &str) -> Self {
        Module { name, comment: comment.to_owned(), body: String::new(), examples: 0 }
    }

    pub fn say(&mut self, text: &str) {
        writeln!(self.body, "\n{text}").unwrap();
    }

    /// A list under a name.
    pub fn define(&mut self, name: &str, expression: &str) {
        self.say(&definition(name, expression));
    }

    /// The same, with a word on it.
    pub fn define_said(&mut self, comment: &str, name: &str, expression: &str) {
        self.say(&format!("-- {comment}\n{}", definition(name, expression)));
    }

    pub fn holds(&mut self, name: &str, test: &str) {
        self.say(&format!("pub {name} : T ({test})\nunfolding computed\n{name} = tt"));
        self.examples += 1;
    }

    pub fn equal(&mut self, name: &str, left: &str, right: &str) {
        self.say(&format!("pub {name} : {left} ≡ {right}\nunfolding computed\n{name} = refl"));
        self.examples += 1;
    }

    pub fn text(&self) -> String {
        let code = self.body.lines().filter(|line| !line.starts_with("--"));
        let words: std::collections::BTreeSet<&str> =
            code.flat_map(|line| line.split(|c: char| c.is_whitespace() || "(){};,".contains(c))).collect();
        let used = |name: &str| words.contains(name) || words.contains(name.trim_matches('◌'));
        let defined = |name: &str| self.body.contains(&format!("\n{name} "));
        let mut text =
            format!("-- {}\n-- Written by oracle/samples.sh from the original's answers, not by hand.\n", self.comment);
        for (path, names) in IMPORTS {
            let wanted: Vec<&str> = names.iter().copied().filter(|name| used(name) && !defined(name)).collect();
            if !wanted.is_empty() {
                writeln!(text, "use {path}.{{{}}}", wanted.join(", ")).unwrap();
            }
        }
        text + &self.body
    }
}
