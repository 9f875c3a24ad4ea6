//! Refusals: the reason, and the place in the level book, the script file, the value list or the signal list.

use core::error::Error;
use core::fmt;

/// Why a call was refused. `docs/REFUSALS.md` has an example of each, and how to mend it.
#[derive(Clone, Copy, Debug, PartialEq, Eq, Hash)]
#[non_exhaustive]
pub enum Reason {
    /// 1: the book's number of levels, or its length, is wrong.
    Book,
    /// 2: the book's relation is no order.
    Order,
    /// 3: a pair of levels lacks a least common upper or a greatest common lower level.
    NoCommonLevel,
    /// 4: the script's tail is wrong.
    Tail,
    /// 5: the script has too many names, expressions or nodes, or no node.
    TooMany,
    /// 6: a name is wrong.
    Name,
    /// 7: an expression is wrong.
    Expression,
    /// 8: a node is wrong.
    Node,
    /// 9: an expression, or a node but the last, is not used exactly once.
    LoosePart,
    /// 10: an owned name is used outside the body of its declaration.
    OutOfReach,
    /// 11: a node lets a level flow to one that it is not at or below.
    Flow,
    /// 12: the reader's level is not in the book.
    Reader,
    /// 13: the value list has another length than the names, or a wrong entry.
    Values,
    /// 14: the step limit is above 1,000,000.
    Limit,
    /// 15: a pair of the signal list has the instant 0, an instant below that of the pair before it, or a name that is
    /// no session signal; or the list ends in half a pair.
    List,
    /// A number that this crate does not know.
    Unknown(u32),
}

/// The reasons with their names, in the order of their numbers: the first has number 1.
const REASONS: [(Reason, &str); 15] = [
    (Reason::Book, "book"),
    (Reason::Order, "order"),
    (Reason::NoCommonLevel, "no common level"),
    (Reason::Tail, "tail"),
    (Reason::TooMany, "too many"),
    (Reason::Name, "name"),
    (Reason::Expression, "expression"),
    (Reason::Node, "node"),
    (Reason::LoosePart, "loose part"),
    (Reason::OutOfReach, "out of reach"),
    (Reason::Flow, "flow"),
    (Reason::Reader, "reader"),
    (Reason::Values, "values"),
    (Reason::Limit, "limit"),
    (Reason::List, "list"),
];

impl Reason {
    /// The reason with this number; 0, which means not refused, gives `Unknown(0)`.
    pub fn from_number(number: u32) -> Reason {
        let mut numbered = (1..).zip(REASONS);
        let row = numbered.find(|&(n, _)| n == number);
        row.map_or(Reason::Unknown(number), |(_, (reason, _))| reason)
    }

    /// The number that the C interface gives.
    pub fn number(self) -> u32 {
        if let Reason::Unknown(number) = self {
            return number;
        }
        let mut numbered = (1..).zip(REASONS);
        let row = numbered.find(|&(_, (reason, _))| reason == self);
        row.map_or(0, |(number, _)| number)
    }

    /// The name in the table of refusals.
    pub fn name(self) -> &'static str {
        let row = REASONS.iter().find(|(reason, _)| *reason == self);
        row.map_or("unknown", |(_, name)| name)
    }
}

/// The first place at fault: of the entries that are at fault in the way of the reason, the smallest.
#[derive(Clone, Copy, Debug, PartialEq, Eq, Hash)]
#[non_exhaustive]
pub enum Place {
    /// No single entry.
    Whole,
    /// A level of the book.
    Level(u32),
    /// Two levels of the book, the lesser number first.
    Pair(u32, u32),
    /// A name of the script.
    Name(u32),
    /// An expression of the script.
    Expression(u32),
    /// A node of the script.
    Node(u32),
    /// An entry of the value list; 0 also stands for its length.
    Value(u32),
    /// A pair of the signal list, or half a pair at its end; `u32::MAX` also stands for every later one.
    ListPair(u32),
}

/// Expressions have the places below this number, nodes those from it on, where a refusal can be about either.
const FIRST_NODE: u32 = 256;

/// A pair of levels i < j has the place 16 i + j.
const PAIR_BASE: u32 = 16;

fn part(place: u32) -> Place {
    match place.checked_sub(FIRST_NODE) {
        Some(node) => Place::Node(node),
        None => Place::Expression(place),
    }
}

/// A refused call: nothing was written into values or log.
#[derive(Clone, Copy, Debug, PartialEq, Eq, Hash)]
pub struct Refusal {
    /// Why.
    pub reason: Reason,
    /// Where, as the C interface gives it; [`Refusal::at`] says what it means.
    pub place: u32,
}

impl Refusal {
    pub(crate) fn new(number: u32, place: u32) -> Refusal {
        let reason = Reason::from_number(number);
        Refusal { reason, place }
    }

    /// What the place names.
    pub fn at(self) -> Place {
        let place = self.place;
        match self.reason {
            Reason::Order => Place::Level(place),
            Reason::NoCommonLevel => Place::Pair(place / PAIR_BASE, place % PAIR_BASE),
            Reason::Name => Place::Name(place),
            Reason::Expression => Place::Expression(place),
            Reason::Node | Reason::Flow => Place::Node(place),
            Reason::LoosePart | Reason::OutOfReach => part(place),
            Reason::Values => Place::Value(place),
            Reason::List => Place::ListPair(place),
            _ => Place::Whole,
        }
    }
}

impl fmt::Display for Place {
    fn fmt(&self, f: &mut fmt::Formatter<'_>) -> fmt::Result {
        match self {
            Place::Whole => write!(f, "the whole"),
            Place::Level(i) => write!(f, "level {i}"),
            Place::Pair(i, j) => write!(f, "levels {i} and {j}"),
            Place::Name(x) => write!(f, "name {x}"),
            Place::Expression(e) => write!(f, "expression {e}"),
            Place::Node(k) => write!(f, "node {k}"),
            Place::Value(0) => write!(f, "the length or value 0"),
            Place::Value(x) => write!(f, "value {x}"),
            Place::ListPair(i) => write!(f, "pair {i}"),
        }
    }
}

impl fmt::Display for Refusal {
    fn fmt(&self, f: &mut fmt::Formatter<'_>) -> fmt::Result {
        let (reason, at) = (self.reason, self.at());
        write!(
            f,
            "refused {} {}: {}",
            reason.number(),
            self.place,
            reason.name()
        )?;
        if at == Place::Whole {
            return Ok(());
        }
        write!(f, ", {at}")
    }
}

impl Error for Refusal {}
