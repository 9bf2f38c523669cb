//! Orders: how a word is split, what the loop box adds, and which codes are built.

use super::operation::{OfOne, OfTwo};
use super::stop::{Field, Reason, FIELDS};
use super::word::Word;

/// Sign, first digit, then three addresses of three digits; A holds O2 when the first digit is 0.
#[derive(Clone, Copy, Debug, PartialEq, Eq)]
pub struct Order {
    pub minus: bool,
    pub o1: u64,
    pub a: u64,
    pub b: u64,
    pub c: u64,
}

impl Order {
    pub fn of_word(word: Word) -> Order {
        let Word { minus, digits } = word;
        let (o1, a) = (digits / 1_000_000_000, digits / 1_000_000 % 1_000);
        Order { minus, o1, a, b: digits / 1_000 % 1_000, c: digits % 1_000 }
    }

    pub fn word(self) -> Word {
        let digits = ((self.o1 * 1_000 + self.a) * 1_000 + self.b) * 1_000 + self.c;
        Word { minus: self.minus, digits }
    }

    pub fn address(self, field: Field) -> u64 {
        match field {
            Field::A => self.a,
            Field::B => self.b,
            Field::C => self.c,
        }
    }

    pub fn with_address(mut self, field: Field, address: u64) -> Order {
        match field {
            Field::A => self.a = address,
            Field::B => self.b = address,
            Field::C => self.c = address,
        }
        self
    }

    /// The order as done: a minus order gets the loop box's counts added, whatever its code, and
    /// keeps its minus. Each of the three sums must stay below 1,000.
    pub fn made_with(self, counts: [u64; 3]) -> Result<Order, Reason> {
        let mut made = self;
        if self.minus {
            for (field, count) in FIELDS.into_iter().zip(counts) {
                let sum = self.address(field) + count;
                if sum > 999 {
                    return Err(Reason::SumAbove999(field));
                }
                made = made.with_address(field, sum);
            }
        }
        Ok(made)
    }
}

/// What an address order does to an address.
#[derive(Clone, Copy, Debug, PartialEq, Eq, PartialOrd, Ord)]
pub enum Change {
    Set,
    Add,
    Sub,
}

impl Change {
    /// C as it is added.
    pub fn constant(self, c: u64) -> i64 {
        if self == Change::Sub {
            -(c as i64)
        } else {
            c as i64
        }
    }
}

/// What an address sum does that passes 999 or falls below 000.
#[derive(Clone, Copy, Debug, Default, PartialEq, Eq)]
pub enum Sums {
    /// It goes on in the digits before the address (W-205).
    #[default]
    Carry,
    /// It stays in the address, modulo 1000: the rule before W-205.
    Wrap,
}

/// What one in an address is worth among the ten digits.
pub fn worth(field: Field) -> u64 {
    match field {
        Field::A => 1_000_000,
        Field::B => 1_000,
        Field::C => 1,
    }
}

/// The orders that are built.
#[derive(Clone, Copy, Debug, PartialEq, Eq, PartialOrd, Ord)]
pub enum Code {
    OfTwo(OfTwo),
    OfOne(OfOne),
    Move000,
    /// Of a block: A is not 000.
    Move,
    CondStop,
    UncStop,
    TrSgn,
    TrExp,
    Tr,
    TrSubr,
    /// Which of the counts A, B, C are named.
    Loop([bool; 3]),
    Change(Change, Field),
    /// TR A, TR B, TR C: the address that is compared.
    TrAddress(Field),
    Pch,
    Read,
    StartTr,
    StopTr,
    StTrEras,
    Noop,
}

/// What may stand behind the first digit of a built code.
#[derive(Clone, Copy, Debug, PartialEq, Eq)]
pub enum Second {
    /// An address A, and any one.
    Any,
    /// An A that is not 000.
    AnyBut000,
    /// An O2, or an A that is part of the code.
    Just(u64),
}

/// A code that is built, with its name in the newsletter's list.
#[derive(Clone, Copy, Debug, PartialEq, Eq)]
pub struct Built {
    pub o1: u64,
    pub second: Second,
    pub code: Code,
    pub name: &'static str,
}

impl Built {
    /// The three digits behind O1, where A is to be this address if it can be.
    pub fn a(self, address: u64) -> u64 {
        match self.second {
            Second::Any => address,
            Second::AnyBut000 => address.max(1),
            Second::Just(digits) => digits,
        }
    }

    fn is(self, order: Order) -> bool {
        self.o1 == order.o1 && self.a(order.a) == order.a
    }
}

const fn any(o1: u64, code: Code, name: &'static str) -> Built {
    Built { o1, second: Second::Any, code, name }
}

const fn any_but_000(o1: u64, code: Code, name: &'static str) -> Built {
    Built { o1, second: Second::AnyBut000, code, name }
}

const fn just(o1: u64, digits: u64, code: Code, name: &'static str) -> Built {
    Built { o1, second: Second::Just(digits), code, name }
}

pub const BUILT: [Built; 40] = [
    any(1, Code::OfTwo(OfTwo::Add), "ADD"),
    any(2, Code::OfTwo(OfTwo::Sub), "SUB"),
    any(3, Code::OfTwo(OfTwo::Mpy), "MPY"),
    any(4, Code::OfTwo(OfTwo::Div), "DIV"),
    any(5, Code::OfTwo(OfTwo::Ngmpy), "NGMPY"),
    any(6, Code::TrAddress(Field::A), "TR A"),
    any(7, Code::TrAddress(Field::B), "TR B"),
    any(8, Code::TrAddress(Field::C), "TR C"),
    just(9, 0, Code::Move000, "MOVE 000"),
    any_but_000(9, Code::Move, "MOVE"),
    just(0, 0, Code::UncStop, "UNC STOP"),
    just(0, 200, Code::CondStop, "COND STOP"),
    just(0, 201, Code::TrSgn, "TR SGN"),
    just(0, 202, Code::TrExp, "TR EXP"),
    just(0, 203, Code::Tr, "TR"),
    just(0, 204, Code::TrSubr, "TR SUBR"),
    just(0, 100, Code::Loop([true, false, false]), "LOOP A"),
    just(0, 10, Code::Loop([false, true, false]), "LOOP B"),
    just(0, 1, Code::Loop([false, false, true]), "LOOP C"),
    just(0, 110, Code::Loop([true, true, false]), "LOOP AB"),
    just(0, 101, Code::Loop([true, false, true]), "LOOP AC"),
    just(0, 11, Code::Loop([false, true, true]), "LOOP BC"),
    just(0, 111, Code::Loop([true, true, true]), "LOOP ABC"),
    just(0, 500, Code::Change(Change::Set, Field::A), "SET A"),
    just(0, 50, Code::Change(Change::Set, Field::B), "SET B"),
    just(0, 5, Code::Change(Change::Set, Field::C), "SET C"),
    just(0, 600, Code::Change(Change::Add, Field::A), "ADD A"),
    just(0, 60, Code::Change(Change::Add, Field::B), "ADD B"),
    just(0, 6, Code::Change(Change::Add, Field::C), "ADD C"),
    just(0, 700, Code::Change(Change::Sub, Field::A), "SUB A"),
    just(0, 70, Code::Change(Change::Sub, Field::B), "SUB B"),
    just(0, 7, Code::Change(Change::Sub, Field::C), "SUB C"),
    just(0, 300, Code::OfOne(OfOne::Sqrt), "SQRT"),
    just(0, 350, Code::OfOne(OfOne::Abs), "ABS"),
    just(0, 400, Code::Read, "READ"),
    just(0, 410, Code::Pch, "PCH"),
    just(0, 450, Code::StartTr, "START TR"),
    just(0, 451, Code::StopTr, "STOP TR"),
    just(0, 452, Code::StTrEras, "ST TR ERAS"),
    just(0, 454, Code::Noop, "NOOP"),
];

/// The code of an order as done, or none if it is not built.
pub fn code(order: Order) -> Option<Code> {
    BUILT.iter().find(|built| built.is(order)).map(|built| built.code)
}

#[cfg(test)]
mod tests {
    use super::*;

    #[test]
    fn a_word_is_an_order_and_back() {
        let word = Word::of_text(b"-0410202203");
        let order = Order::of_word(word);
        assert_eq!(order, Order { minus: true, o1: 0, a: 410, b: 202, c: 203 });
        assert_eq!(order.word(), word);
    }

    #[test]
    fn the_loop_box_adds_to_all_three_or_refuses() {
        let order = Order { minus: true, o1: 0, a: 454, b: 0, c: 999 };
        assert_eq!(order.made_with([1, 2, 0]), Ok(Order { a: 455, b: 2, ..order }));
        assert_eq!(order.made_with([0, 0, 1]), Err(Reason::SumAbove999(Field::C)));
        let plus = Order { minus: false, ..order };
        assert_eq!(plus.made_with([999, 999, 999]), Ok(plus));
    }

    #[test]
    fn the_codes_that_are_built() {
        let built = |o1, a| code(Order { minus: false, o1, a, b: 0, c: 0 }).is_some();
        assert_eq!((0..1000).filter(|&a| built(0, a)).count(), 30);
        for o1 in 1..=9 {
            assert!((0..1000).all(|a| built(o1, a)));
        }
        let moves = |a| code(Order { minus: false, o1: 9, a, b: 0, c: 0 });
        assert_eq!(moves(0), Some(Code::Move000));
        assert!((1..1000).all(|a| moves(a) == Some(Code::Move)));
        for o2 in [2, 205, 301, 305, 351, 355, 401, 453, 112, 200 + 10] {
            assert!(!built(0, o2));
        }
        for digits in 1..8 {
            let named = [digits & 4 != 0, digits & 2 != 0, digits & 1 != 0];
            let o2 = named.iter().fold(0, |value, &one| value * 10 + one as u64);
            assert_eq!(
                code(Order { minus: false, o1: 0, a: o2, b: 0, c: 0 }),
                Some(Code::Loop(named))
            );
        }
    }
}
