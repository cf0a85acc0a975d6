//! Lines of the sections `recordings`, `packets`, `updates` and `temperatures` of the program `panel_examples`, as far
//! as they are alike.
//!
//! A line has a part byte; words that say what is known; a number behind an `@`, or none; a refusal behind a `$`, or
//! none; and bytes. All numbers are in hex.

use crate::answer::Answer;
use crate::bits::Bits;
use crate::cells::Cells;
use std::collections::BTreeMap;

pub struct Line {
    pub part: u8,
    pub words: Vec<Word>,
    /// The number behind the `@`.
    pub number: Option<usize>,
    /// The refusal behind the `$`, which may be none that stands.
    pub refusal: Option<Answer>,
    pub bytes: Vec<u8>,
}

impl Line {
    /// A line that is none is a mistake of whoever made it.
    pub fn read(line: &str) -> Self {
        let mut pieces = line.split(' ');
        let mut read = Line {
            part: byte_in(pieces.next().expect("a line has a part byte")),
            words: Vec::new(),
            number: None,
            refusal: None,
            bytes: Vec::new(),
        };
        let mut of_bytes = Vec::new();
        for piece in pieces {
            if let Some(number) = piece.strip_prefix('@') {
                read.number = Some(number_in(number));
            } else if let Some(refusal) = piece.strip_prefix('$') {
                read.refusal = Some(refusal_in(refusal));
            } else if piece.starts_with(|first: char| first.is_ascii_lowercase()) {
                read.words.push(Word::read(piece));
            } else {
                of_bytes.push(piece);
            }
        }
        read.bytes = bytes_of(of_bytes);
        read
    }
}

/// What is said of one fact.
pub struct Word {
    /// Of a word's letters only the first counts.
    pub name: char,
    /// Single facts have the number 0.
    pub at: usize,
    pub saying: Saying,
}

#[derive(Clone, Copy)]
pub enum Saying {
    /// Of a fact that is known bit by bit, every bit is known.
    Known(u8),
    /// The values of bits, and a mark for each that is known.
    Bits(u8, u8),
    Unknown,
    /// The address past the last cell.
    Invalid,
    /// Neither known nor unknown. Bits are then unknown, and yet there is a 1 among them.
    Neither,
}

impl Word {
    /// A word has letters, a number or none, and `?`, `!` or `=` and a value or none. Behind the values of bits there
    /// may be marks, such as `=12/F6`.
    fn read(word: &str) -> Self {
        let rest = word.trim_start_matches(|letter: char| letter.is_ascii_lowercase());
        let mark = rest.find(['?', '!', '=']).unwrap_or(rest.len());
        Word {
            name: word.chars().next().expect("a word has a letter"),
            at: number_in(&rest[..mark]),
            saying: saying_in(&rest[mark..]),
        }
    }
}

/// What is said of a panel, by a word's first letter and its number.
pub struct Told(BTreeMap<(char, usize), Saying>);

impl Told {
    /// Each single fact has a usual value.
    pub fn everything(single_facts: &[(char, u8)]) -> Self {
        let facts = single_facts.iter();
        Told(
            facts
                .map(|&(name, value)| ((name, 0), Saying::Known(value)))
                .collect(),
        )
    }

    pub fn say(&mut self, name: char, at: usize, saying: Saying) {
        self.0.insert((name, at), saying);
    }

    pub fn say_all(&mut self, name: char, length: usize, saying: Saying) {
        for at in 0..length {
            self.say(name, at, saying);
        }
    }

    pub fn forget_all(&mut self) {
        self.0.values_mut().for_each(|fact| *fact = Saying::Unknown);
    }

    /// `nothing` speaks of every fact, and any other word of its own.
    pub fn tell(&mut self, word: &Word) {
        match word.name {
            'n' => self.forget_all(),
            _ => self.say(word.name, word.at, word.saying),
        }
    }

    pub fn saying(&self, name: char, at: usize) -> Saying {
        self.0[&(name, at)]
    }

    /// None, as below, where a fact is said to be what it cannot be held as here.
    pub fn byte(&self, name: char, at: usize) -> Option<Option<u8>> {
        match self.saying(name, at) {
            Saying::Known(value) => Some(Some(value)),
            Saying::Unknown => Some(None),
            Saying::Invalid | Saying::Neither => None,
            Saying::Bits(..) => panic!("a fact without bits has marks: {name}"),
        }
    }

    /// What is said of bits can always be held, though it may be out of range.
    pub fn bits<const ALL: u8>(&self, name: char, at: usize) -> Bits<ALL> {
        match self.saying(name, at) {
            Saying::Known(values) => Bits::all_known(values),
            Saying::Bits(values, known) => Bits::new(values, known),
            Saying::Unknown => Bits::UNKNOWN,
            Saying::Neither => Bits::new(0x01, 0x00),
            Saying::Invalid => panic!("only an address can be invalid, and not {name}"),
        }
    }

    pub fn cells<const N: usize, const ALL: u8>(&self, name: char) -> Cells<N, ALL> {
        Cells::from_facts(std::array::from_fn(|at| self.bits(name, at)))
    }

    pub fn row<const N: usize>(&self, name: char) -> Option<[Option<u8>; N]> {
        let mut row = [None; N];
        for (at, fact) in row.iter_mut().enumerate() {
            *fact = self.byte(name, at)?;
        }
        Some(row)
    }

    /// A fact that is no number, whose values stand in the order of the numbers that words use.
    pub fn one_of<T: Copy>(&self, name: char, values: &[T]) -> Option<Option<T>> {
        match self.byte(name, 0)? {
            Some(number) => values.get(usize::from(number)).map(|&value| Some(value)),
            None => Some(None),
        }
    }
}

fn saying_in(text: &str) -> Saying {
    let Some(value) = text.strip_prefix('=') else {
        return match text {
            "!" => Saying::Neither,
            _ => Saying::Unknown,
        };
    };
    match value.split_once('/') {
        Some((values, marks)) => Saying::Bits(byte_in(values), byte_in(marks)),
        None => Saying::Known(byte_in(value)),
    }
}

/// A number, and a place behind a `=`.
fn refusal_in(text: &str) -> Answer {
    let (number, place) = text.split_once('=').expect("a refusal has a place");
    Answer::refused(byte_in(number), number_in(place))
}

/// The bytes that a row of pieces stands for.
pub fn bytes_in(row: &str) -> Vec<u8> {
    bytes_of(row.split_whitespace())
}

/// What stands between `(` and `)*FFFE` is repeated until there are FFFEH bytes, if need be not to its end.
fn bytes_of<'a>(pieces: impl IntoIterator<Item = &'a str>) -> Vec<u8> {
    let (mut bytes, mut opened) = (Vec::new(), 0);
    for piece in pieces {
        if piece == "(" {
            opened = bytes.len();
        } else if let Some(length) = piece.strip_prefix(")*") {
            let repeated = bytes[opened..].to_vec();
            let more = number_in(length) - bytes.len();
            bytes.extend(repeated.iter().cycle().take(more));
        } else {
            bytes.push(byte_in(piece));
        }
    }
    bytes
}

/// Each byte behind a space.
pub fn bytes_in_words(bytes: &[u8]) -> String {
    bytes.iter().map(|byte| format!(" {byte:02X}")).collect()
}

fn byte_in(digits: &str) -> u8 {
    u8::from_str_radix(digits, 16).unwrap_or_else(|_| panic!("no byte in hex: {digits}"))
}

fn number_in(digits: &str) -> usize {
    match digits {
        "" => 0,
        _ => usize::from_str_radix(digits, 16)
            .unwrap_or_else(|_| panic!("no number in hex: {digits}")),
    }
}
