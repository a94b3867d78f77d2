//! From the numbers of statements to the tree; `include/dumachik.h` has their layout.
//!
//! The layout is proved of the call, so what departs from it is a broken library: that ends in a panic, never in a wrong tree.

use crate::tree::{Counts, CovariateOp, Feature, Item, Mode, Modes, Operand, Statement, TransitCounts};

/// The numbers not taken yet, and the text that their offsets point into.
struct Numbers<'a> {
    left: std::slice::Iter<'a, u32>,
    text: &'a [u8],
}

/// The statement that `numbers`, all of them, give of `text`.
pub(crate) fn statement_of(numbers: &[u32], text: &[u8]) -> Statement {
    let mut numbers = Numbers { left: numbers.iter(), text };
    let statement = numbers.statement();
    assert!(numbers.left.as_slice().is_empty(), "numbers past the statement");
    statement
}

/// All statements, each behind how many numbers it has.
pub(crate) fn statements_of(numbers: &[u32], text: &[u8]) -> Vec<Statement> {
    let mut numbers = Numbers { left: numbers.iter(), text };
    let mut statements = Vec::new();
    while let Some(&many) = numbers.left.next() {
        let left = numbers.left.as_slice().len();
        statements.push(numbers.statement());
        assert_eq!(left - numbers.left.as_slice().len(), many as usize, "a statement's numbers are as many as are told");
    }
    statements
}

impl Numbers<'_> {
    fn next(&mut self) -> u32 {
        *self.left.next().expect("a statement's numbers are all there")
    }

    /// How many, then as many entries.
    fn list<E>(&mut self, entry: impl Fn(&mut Self) -> E) -> Vec<E> {
        (0..self.next()).map(|_| entry(self)).collect()
    }

    fn statement(&mut self) -> Statement {
        let (keyword, optional) = (self.next(), self.next() == 1);
        Statement::Feature(match keyword {
            0 => Feature::Absorption(self.modes()),
            1 => Feature::Elimination(self.modes()),
            2 => Feature::Peripherals { counts: self.counts(), kind: self.unless_left_out(Self::modes) },
            3 => Feature::Transits { counts: self.transit_counts(), depot: self.unless_left_out(Self::modes) },
            4 => Feature::Lagtime(self.modes()),
            5 => Feature::Covariate {
                optional,
                parameters: self.operand(),
                covariates: self.operand(),
                effects: self.modes(),
                op: self.op(),
            },
            6 => Feature::Allometry { covariate: self.name_alone(), reference: self.unless_left_out(Self::name_alone) },
            7 => Feature::DirectEffect(self.modes()),
            8 => Feature::EffectComp(self.modes()),
            9 => Feature::IndirectEffect { mode: self.modes(), production: self.modes() },
            10 => Feature::Metabolite(self.modes()),
            11 => Feature::Iiv { optional, parameters: self.operand(), effects: self.modes() },
            12 => Feature::Iov { optional, parameters: self.operand(), effects: self.modes() },
            13 => Feature::Covariance { optional, level: self.modes(), parameters: self.operand() },
            14 => return Statement::Let { name: self.name_alone(), values: self.values() },
            other => panic!("{other} is no keyword"),
        })
    }

    fn unless_left_out<A>(&mut self, argument: impl Fn(&mut Self) -> A) -> Option<A> {
        if self.left.as_slice().first() == Some(&9) {
            self.next();
            return None;
        }
        Some(argument(self))
    }

    fn modes<M: Mode>(&mut self) -> Modes<M> {
        match self.next() {
            0 => Modes::Wildcard,
            1 => Modes::List(self.list(|numbers| M::ALL[numbers.next() as usize])),
            other => panic!("{other} is no kind of modes"),
        }
    }

    fn counts(&mut self) -> Counts {
        let kind = self.next();
        self.counts_of(kind)
    }

    fn counts_of(&mut self, kind: u32) -> Counts {
        match kind {
            2 => Counts::Single(self.next()),
            3 => Counts::Range(self.next(), self.next()),
            4 => Counts::List(self.list(Self::next)),
            other => panic!("{other} is no kind of counts"),
        }
    }

    fn transit_counts(&mut self) -> TransitCounts {
        match self.next() {
            5 => TransitCounts::N,
            kind => TransitCounts::Counts(self.counts_of(kind)),
        }
    }

    fn operand(&mut self) -> Operand {
        match self.next() {
            0 => Operand::Wildcard,
            6 => Operand::Symbol(self.name()),
            7 => Operand::Names(self.list(Self::name)),
            other => panic!("{other} is no kind of operand"),
        }
    }

    fn op(&mut self) -> CovariateOp {
        match self.next() {
            10 => CovariateOp::Multiply,
            11 => CovariateOp::Add,
            other => panic!("{other} is no operator"),
        }
    }

    fn name_alone(&mut self) -> String {
        assert_eq!(self.next(), 8, "a name alone");
        self.name()
    }

    fn values(&mut self) -> Vec<Item> {
        assert_eq!(self.next(), 12, "the values of a LET");
        self.list(Self::value)
    }

    /// A kind, and what it is a kind of.
    fn value(&mut self) -> Item {
        match self.next() {
            0 => Item::Word(self.name()),
            1 => Item::Number(self.name()),
            other => panic!("{other} is no kind of a value"),
        }
    }

    /// An offset and a length.
    fn name(&mut self) -> String {
        let (offset, length) = (self.next() as usize, self.next() as usize);
        let name = std::str::from_utf8(&self.text[offset..offset + length]);
        name.expect("a name is a word or a number, so ASCII").to_string()
    }
}
