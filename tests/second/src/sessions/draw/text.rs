//! The text of a program, put together from parts that each do something of their own.

use super::layout::{Layout, HOLES, INBOX, NUMBERS};
use super::parts::built;
use crate::chance::Chance;
use crate::model::operation::{OfOne, OfTwo};
use crate::model::order::{Change, Code, Order};
use crate::model::stop::{Field, FIELDS};

pub struct Text {
    start: u64,
    pub orders: Vec<Order>,
}

impl Text {
    /// A few parts and a stop.
    pub fn any(layout: &Layout, chance: &mut Chance) -> Text {
        let mut text = Text { start: layout.program, orders: Vec::new() };
        for _ in 0..chance.between(2, 5) {
            text.part(layout, chance);
        }
        let shown = layout.operand(chance);
        text.push(Code::UncStop, 0, shown, 0);
        assert!(text.orders.len() as u64 <= layout.length, "a program outgrows its cells");
        text
    }

    fn part(&mut self, layout: &Layout, chance: &mut Chance) {
        match chance.below(15) {
            0 => self.loop_over_numbers(layout, chance),
            1 => self.loop_that_copies(layout, chance),
            2 => self.loop_that_changes_an_order(layout, chance),
            3 => self.subroutine(layout, chance),
            4 => self.branch_on_sign(layout, chance),
            5 => self.shrink_until_small(layout, chance),
            6 => self.read_and_punch(layout),
            7 => self.trace_a_little(chance),
            8 => self.stop_and_go(layout, chance),
            9 => self.add_and_take_away(layout, chance),
            10 => self.move_a_block(layout, chance),
            11 => self.move_more_and_more(layout, chance),
            12 => self.loop_until_an_address(layout, chance),
            13 => self.carry_and_borrow(layout, chance),
            _ => self.straight(layout, chance),
        }
    }

    fn here(&self) -> u64 {
        self.start + self.orders.len() as u64
    }

    fn push(&mut self, code: Code, a: u64, b: u64, c: u64) {
        self.orders.push(built(code, a, b, c));
    }

    /// A minus order.
    fn push_minus(&mut self, code: Code, a: u64, b: u64, c: u64) {
        self.orders.push(Order { minus: true, ..built(code, a, b, c) });
    }

    fn straight(&mut self, layout: &Layout, chance: &mut Chance) {
        const TWO: [OfTwo; 5] = [OfTwo::Add, OfTwo::Sub, OfTwo::Mpy, OfTwo::Div, OfTwo::Ngmpy];
        for _ in 0..chance.between(2, 5) {
            let (a, b, c) = (layout.operand(chance), layout.operand(chance), layout.result(chance));
            match chance.below(8) {
                0 => self.push(Code::OfOne(OfOne::Abs), 0, b, 0),
                1 => {
                    self.push(Code::OfOne(OfOne::Abs), 0, b, 0);
                    self.push(Code::OfOne(OfOne::Sqrt), 0, 0, c);
                }
                2 => self.push(Code::Move000, 0, b, c),
                _ => self.push(Code::OfTwo(chance.pick(&TWO)), a, b, c),
            }
        }
    }

    /// The sum of the first numbers of the block, with the loop box stepping A or B.
    fn loop_over_numbers(&mut self, layout: &Layout, chance: &mut Chance) {
        let (sum, count) = (layout.hole(chance), chance.between(1, NUMBERS));
        self.push(Code::OfTwo(OfTwo::Sub), layout.numbers, layout.numbers, sum);
        let again = self.here();
        if chance.percent(50) {
            self.push_minus(Code::OfTwo(OfTwo::Add), sum, layout.numbers, sum);
            self.push(Code::Loop([false, true, false]), 0, count, again);
        } else {
            self.push_minus(Code::OfTwo(OfTwo::Add), layout.numbers, sum, sum);
            self.push(Code::Loop([true, false, false]), 0, count, again);
        }
    }

    /// A block copied or combined word by word, with two or three counts at once.
    fn loop_that_copies(&mut self, layout: &Layout, chance: &mut Chance) {
        let count = chance.between(1, INBOX);
        let again = self.here();
        if chance.percent(50) {
            self.push_minus(Code::Move000, 0, layout.strangers, layout.inbox);
            self.push(Code::Loop([false, true, true]), 0, count.min(5), again);
        } else {
            self.push_minus(
                Code::OfTwo(OfTwo::Mpy),
                layout.numbers,
                layout.numbers + 3,
                layout.inbox,
            );
            self.push(Code::Loop([true, true, true]), 0, count, again);
        }
    }

    /// The same without minus orders: the order's own addresses are stepped, then set back.
    fn loop_that_changes_an_order(&mut self, layout: &Layout, chance: &mut Chance) {
        let changed = self.here() + 1;
        let (add, sub) = (Change::Add, Change::Sub);
        let (field, back) = chance.pick(&[(Field::A, sub), (Field::B, sub), (Field::C, add)]);
        let step = if back == add { (sub, 1) } else { (add, 1) };
        let sum = layout.numbers + NUMBERS - 1;
        self.push(Code::Change(Change::Set, Field::C), 0, changed, sum);
        self.push(Code::OfTwo(OfTwo::Add), layout.numbers + 2, layout.numbers, sum);
        self.push(Code::Change(step.0, field), 0, changed, step.1);
        let count = chance.between(2, 4);
        self.push(Code::Loop([false, false, true]), 0, count, changed);
        self.push(Code::Change(back, field), 0, changed, count);
    }

    /// The entry takes the return address and hands it to the last order of the routine.
    fn subroutine(&mut self, layout: &Layout, chance: &mut Chance) {
        let call = self.here();
        let (entry, exit, back) = (call + 2, call + 4, call + 1);
        self.push(Code::TrSubr, 0, back, entry);
        self.push(Code::Tr, 0, 0, exit + 1);
        let entry_minus = chance.percent(50);
        self.push(Code::Change(Change::Set, Field::C), 0, exit, 0);
        self.orders.last_mut().expect("just pushed").minus = entry_minus;
        self.push(Code::OfOne(OfOne::Abs), 0, layout.number(chance), layout.number(chance));
        self.push(Code::Tr, 0, 0, 0);
    }

    fn branch_on_sign(&mut self, layout: &Layout, chance: &mut Chance) {
        let (a, b) = (layout.operand(chance), layout.operand(chance));
        self.push(Code::OfTwo(OfTwo::Sub), a, b, layout.hole(chance));
        let next = self.here() + 1;
        self.push(Code::TrSgn, 0, next, next + 1);
        self.push(Code::OfTwo(OfTwo::Ngmpy), 0, layout.number(chance), layout.number(chance));
        self.push(Code::Noop, 0, 0, 0);
    }

    /// A number is divided by itself times ten or so until its exponent is below a bound.
    fn shrink_until_small(&mut self, layout: &Layout, chance: &mut Chance) {
        let (value, divisor) = (layout.number(chance), layout.number(chance));
        let again = self.here();
        self.push(Code::OfTwo(OfTwo::Div), value, divisor, value);
        self.push(Code::TrExp, 0, chance.between(35, 60), again);
    }

    fn read_and_punch(&mut self, layout: &Layout) {
        let last = layout.inbox + INBOX - 1;
        self.push(Code::Read, 0, layout.inbox, last);
        self.push(Code::Pch, 0, layout.inbox, last);
    }

    fn trace_a_little(&mut self, chance: &mut Chance) {
        for _ in 0..chance.between(1, 4) {
            let code =
                chance.pick(&[Code::StartTr, Code::StopTr, Code::StTrEras, Code::Noop, Code::Pch]);
            self.push(code, 0, 0, 0);
        }
    }

    /// A number is added to another, which is then taken away: of the smaller one some digits are left.
    fn add_and_take_away(&mut self, layout: &Layout, chance: &mut Chance) {
        let (a, b, sum) = (layout.number(chance), layout.number(chance), layout.hole(chance));
        self.push(Code::OfTwo(OfTwo::Add), a, b, sum);
        self.push(Code::OfTwo(OfTwo::Sub), sum, chance.pick(&[a, b]), layout.result(chance));
    }

    /// Numbers to cells that are not marked, to the inbox, or up or down among themselves.
    fn move_a_block(&mut self, layout: &Layout, chance: &mut Chance) {
        let words = chance.between(1, HOLES);
        let any_from = |chance: &mut Chance| layout.numbers + chance.below(NUMBERS - words + 1);
        let from = any_from(chance);
        let to = match chance.below(4) {
            0 => layout.holes,
            1 => layout.inbox,
            _ => any_from(chance),
        };
        self.push(Code::Move, words, from, to);
    }

    /// A minus order that the loop box makes into moves of one word, two words, and so on; the first
    /// time it is MOVE 000.
    fn move_more_and_more(&mut self, layout: &Layout, chance: &mut Chance) {
        let (from, to) = (layout.numbers, chance.pick(&[layout.holes, layout.numbers + 2]));
        let again = self.here();
        self.push_minus(Code::Move000, 0, from, to);
        self.push(Code::Loop([true, false, false]), 0, chance.between(2, HOLES), again);
    }

    /// An order steps through cells until one of its own addresses says that it is done.
    fn loop_until_an_address(&mut self, layout: &Layout, chance: &mut Chance) {
        let changed = self.here() + 1;
        let (field, start) = chance.pick(&[
            (Field::A, layout.numbers),
            (Field::B, layout.numbers + 1),
            (Field::C, layout.inbox),
        ]);
        let count = chance.between(1, INBOX);
        self.push(Code::Change(Change::Set, field), 0, changed, start);
        self.push(Code::OfTwo(OfTwo::Add), layout.numbers, layout.numbers + 1, layout.inbox);
        self.push(Code::Change(Change::Add, field), 0, changed, 1);
        self.push(Code::TrAddress(field), changed, start + count, changed);
    }

    /// What is added to an address is taken from it again, all at once or in two steps.
    fn carry_and_borrow(&mut self, layout: &Layout, chance: &mut Chance) {
        let changed =
            if chance.percent(50) { layout.stranger(chance) } else { layout.number(chance) };
        let field = chance.pick(&FIELDS);
        let [add, sub] = [Change::Add, Change::Sub].map(|change| Code::Change(change, field));
        let c = chance.between(2, 999);
        let step = chance.pick(&[0, 1, c / 2]);
        self.push(add, 0, changed, c);
        self.push(sub, 0, changed, c - step);
        self.push(sub, 0, changed, step);
    }

    fn stop_and_go(&mut self, layout: &Layout, chance: &mut Chance) {
        let next = self.here() + 1;
        self.push(Code::CondStop, 0, layout.operand(chance), next);
    }
}
