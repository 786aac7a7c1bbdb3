//! Tables like those of machine code: a stack pointer moved by calls, a heap beside it, pointers
//! read from memory, and registers that are recorded again at each re-entry.

use crate::random::Random;
use second::{Ref, Row, Width};

#[derive(Clone, Copy)]
pub struct Habits {
    pub heap: bool,
    /// One step in so many goes through a pointer read from memory; 0 for none.
    pub pointers_one_in: usize,
    /// One step in so many is a re-entry; 0 for none.
    pub re_entries_one_in: usize,
    /// The names of the stack and heap registers.
    pub names: [u16; 2],
    pub stack: Stack,
}

/// Where the stack pointer begins.
#[derive(Clone, Copy)]
pub enum Stack {
    /// Far from the heap and from zero.
    High,
    /// From 0 on, below the heap: calls move it down across zero.
    AtZero,
    /// Where it may cross zero or meet the heap.
    Anywhere,
}

struct Machine<'r> {
    random: &'r mut Random,
    width: Width,
    most_rows: usize,
    rows: Vec<Row>,
    stack: Ref,
    heap: Ref,
    memory: Ref,
    /// Words that a program may store or compute with.
    values: Vec<Ref>,
    /// How many words lie on the stack, so that returns match calls.
    depth: usize,
    /// The registers as they were first recorded, stack and heap.
    registers: Vec<Row>,
}

pub fn rows(random: &mut Random, width: Width, count: usize, habits: Habits) -> Vec<Row> {
    let mut machine = Machine {
        random,
        width,
        most_rows: count,
        rows: Vec::with_capacity(count),
        stack: 0,
        heap: 0,
        memory: 0,
        values: Vec::new(),
        depth: 0,
        registers: Vec::new(),
    };
    // None only says that the rows are used up.
    let _ = machine.live(habits);
    machine.rows
}

impl Machine<'_> {
    fn push(&mut self, row: Row) -> Option<Ref> {
        if self.rows.len() == self.most_rows {
            return None;
        }
        self.rows.push(row);
        Some(self.rows.len() - 1)
    }

    fn live(&mut self, habits: Habits) -> Option<()> {
        let largest = self.width.largest();
        let (low, high) = match habits.stack {
            Stack::High => (largest - largest / 4, largest - largest / 8),
            Stack::AtZero => (0, largest / 16),
            Stack::Anywhere => {
                let low = self.random.word(self.width);
                (low, low + self.random.from_to(0, (largest - low) / 4))
            }
        };
        let [stack, heap] = habits.names;
        self.registers.push(Row::Var { name: stack, low, high });
        if habits.heap {
            self.registers.push(Row::Var { name: heap, low: largest / 8, high: largest / 4 });
        }
        self.enter()?;
        self.memory = self.push(Row::Fresh)?;
        let first = self.push(Row::Const { k: 0 })?;
        self.values.push(first);
        loop {
            if habits.re_entries_one_in != 0 && self.random.one_in(habits.re_entries_one_in) {
                self.enter()?;
            }
            if habits.pointers_one_in != 0 && self.random.one_in(habits.pointers_one_in) {
                self.through_pointer()?;
            }
            match self.random.below(if habits.heap { 8 } else { 6 }) {
                0 => self.call()?,
                1 => self.come_back()?,
                2 => self.store(self.stack)?,
                3 | 4 => self.load(self.stack)?,
                5 => self.compute()?,
                6 => self.store(self.heap)?,
                _ => self.load(self.heap)?,
            }
        }
    }

    /// Records the registers.
    fn enter(&mut self) -> Option<()> {
        self.stack = self.push(self.registers[0])?;
        self.heap = self.stack;
        if let Some(heap) = self.registers.get(1) {
            self.heap = self.push(*heap)?;
        }
        self.depth = 0;
        Some(())
    }

    fn unit(&self) -> u64 {
        (self.width.bits() as u64 / 8).max(1)
    }

    fn moved(&mut self, pointer: Ref, by: u64) -> Option<Ref> {
        self.push(Row::Shift { a: pointer, k: by & self.width.largest() })
    }

    /// Pushes a return address.
    fn call(&mut self) -> Option<()> {
        self.stack = self.moved(self.stack, 0u64.wrapping_sub(self.unit()))?;
        let k = self.random.from_to(0, self.width.largest());
        let address = self.push(Row::Const { k })?;
        self.memory =
            self.push(Row::Write { array: self.memory, index: self.stack, value: address })?;
        self.depth += 1;
        Some(())
    }

    /// Pops a return address; where nothing was pushed, calls instead.
    fn come_back(&mut self) -> Option<()> {
        if self.depth == 0 {
            return self.call();
        }
        let address = self.push(Row::Read { array: self.memory, index: self.stack })?;
        self.values.push(address);
        self.stack = self.moved(self.stack, self.unit())?;
        self.depth -= 1;
        Some(())
    }

    fn place(&mut self, base: Ref) -> Option<Ref> {
        let by = self.unit() * self.random.from_to(0, 7);
        self.moved(base, by)
    }

    fn store(&mut self, base: Ref) -> Option<()> {
        let index = self.place(base)?;
        let value = self.random.pick(&self.values);
        self.memory = self.push(Row::Write { array: self.memory, index, value })?;
        Some(())
    }

    fn load(&mut self, base: Ref) -> Option<()> {
        let index = self.place(base)?;
        let value = self.push(Row::Read { array: self.memory, index })?;
        self.values.push(value);
        Some(())
    }

    fn through_pointer(&mut self) -> Option<()> {
        self.load(self.heap)?;
        let pointer = self.rows.len() - 1;
        if self.random.one_in(2) {
            self.store(pointer)
        } else {
            self.load(pointer)
        }
    }

    fn compute(&mut self) -> Option<()> {
        let (a, b) = (self.random.pick(&self.values), self.random.pick(&self.values));
        let k = self.random.word(self.width);
        let row = match self.random.below(6) {
            0 => Row::Sum { a, b, k },
            1 => Row::Diff { a, b, k },
            2 => Row::Neg { a, k },
            // The distance between two places on the stack.
            3 => Row::Diff { a: self.stack, b: 0, k },
            4 => Row::Sum { a: self.stack, b: a, k: 0 },
            _ => Row::Const { k },
        };
        let value = self.push(row)?;
        self.values.push(value);
        Some(())
    }
}
