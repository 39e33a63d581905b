//! Expressions, operand runs and conjuncts.
//!
//! Every expression is put behind its children, and an And or Or takes its run of operands at the
//! moment it is put. So children have lower numbers and the runs follow each other.

use super::Draw;
use super::edges::Edge;
use super::scalars;
use super::style::Size;
use crate::limits::most;
use crate::values::{Column, Expression, Scalar, Section, Sheet};

const EQUAL: u8 = 0;
const NULL_SAFE: u8 = 1;
const LESS: u8 = 3;
const GREATER_OR_EQUAL: u8 = 6;
const NOT: u8 = 0;
const IS_NULL: u8 = 1;
const IS_NOT_NULL: u8 = 2;
const NEGATE: u8 = 3;
const AND: u8 = 0;
const OR: u8 = 1;

pub fn fill(draw: &mut Draw, sheet: &mut Sheet) {
    let mut builder = Builder::new(draw, sheet);
    builder.equalities();
    builder.residuals();
    builder.strays();
    let Builder { list, .. } = builder;
    sheet.expressions = list.expressions;
    sheet.operands = list.operands;
    sheet.conjuncts = order(draw, list.conjuncts);
}

/// Conjuncts as they were drawn, or turned round, or mixed. The edges were put into an order of
/// their own, which is kept more often where distincts are tied.
fn order(draw: &mut Draw, mut conjuncts: Vec<u16>) -> Vec<u16> {
    let weights = match draw.style.tied.is_empty() {
        true => [50, 20, 30],
        false => [80, 10, 10],
    };
    match draw.random.weighted(&weights) {
        0 => {}
        1 => conjuncts.reverse(),
        _ => draw.random.shuffle(&mut conjuncts),
    }
    conjuncts
}

fn falls(column: &Column) -> bool {
    match (&column.lower, &column.upper) {
        (Some(lower), Some(upper)) => scalars::falls(lower, upper),
        _ => false,
    }
}

#[derive(Clone, Default)]
struct List {
    expressions: Vec<Expression>,
    operands: Vec<u16>,
    conjuncts: Vec<u16>,
    /// The Ands and Ors that are an operand already.
    taken: Vec<u16>,
}

impl List {
    fn fits(&self) -> bool {
        self.expressions.len() <= most(Section::Expressions)
            && self.operands.len() <= most(Section::Operands)
            && self.conjuncts.len() <= most(Section::Conjuncts)
    }
}

struct Builder<'a> {
    draw: &'a mut Draw,
    sheet: &'a Sheet,
    list: List,
}

impl<'a> Builder<'a> {
    fn new(draw: &'a mut Draw, sheet: &'a Sheet) -> Self {
        Builder {
            draw,
            sheet,
            list: List::default(),
        }
    }

    /// Puts what a step puts, unless the sheet would become too large.
    fn attempt(&mut self, step: impl FnOnce(&mut Self)) {
        let before = self.list.clone();
        step(self);
        if !self.list.fits() {
            self.list = before;
        }
    }

    fn equalities(&mut self) {
        for edge in self.draw.edges.clone() {
            self.attempt(|builder| {
                let equality = builder.edge(edge);
                builder.list.conjuncts.push(equality);
            });
            if self.draw.random.chance(4) {
                self.repeat();
            }
        }
    }

    fn residuals(&mut self) {
        for _ in 0..self.residual_count() {
            self.attempt(|builder| {
                let residual = builder.residual();
                builder.list.conjuncts.push(residual);
            });
            if self.draw.random.chance(3) {
                self.repeat();
            }
        }
    }

    fn residual_count(&mut self) -> usize {
        let random = &mut self.draw.random;
        match self.draw.style.size {
            Size::Small => random.weighted(&[18, 45, 23, 10, 4]),
            Size::Middling => random.weighted(&[12, 38, 25, 14, 7, 4]),
            Size::Large => random.between(0, 20),
        }
    }

    /// Names a conjunct once more.
    fn repeat(&mut self) {
        if let Some(conjunct) = self.draw.random.pick_any(&self.list.conjuncts) {
            self.attempt(|builder| builder.list.conjuncts.push(conjunct));
        }
    }

    /// Expressions that no conjunct names.
    fn strays(&mut self) {
        let count = match self.draw.style.size {
            Size::Large => self.draw.random.between(0, 25),
            _ => self.draw.random.weighted(&[62, 20, 12, 6]),
        };
        for _ in 0..count {
            self.attempt(|builder| {
                builder.any(2);
            });
        }
    }

    fn put(&mut self, expression: Expression) -> u16 {
        self.list.expressions.push(expression);
        (self.list.expressions.len() - 1) as u16
    }

    /// An expression that is there already, or a new one.
    fn put_or_share(&mut self, expression: Expression) -> u16 {
        let mut expressions = self.list.expressions.iter();
        match expressions.position(|other| *other == expression) {
            Some(place) if self.draw.random.chance(60) => place as u16,
            _ => self.put(expression),
        }
    }

    fn literal(&mut self, scalar: Scalar) -> u16 {
        self.put_or_share(Expression::Literal(scalar))
    }

    fn column(&mut self, column: u16) -> u16 {
        self.put_or_share(Expression::Column(column))
    }

    fn unary(&mut self, op: u8, child: u16) -> u16 {
        self.put(Expression::Unary { op, child })
    }

    fn binary(&mut self, op: u8, left: u16, right: u16) -> u16 {
        self.put(Expression::Binary { op, left, right })
    }

    /// A binary expression with its children this way or that.
    fn either_way(&mut self, op: u8, one: u16, other: u16) -> u16 {
        match self.draw.random.chance(50) {
            true => self.binary(op, one, other),
            false => self.binary(op, other, one),
        }
    }

    fn run(&mut self, op: u8, operands: &[u16]) -> u16 {
        let first = self.list.operands.len() as u16;
        self.list.operands.extend(operands);
        self.put(Expression::Nary {
            op,
            first,
            count: operands.len() as u16,
        })
    }

    fn edge(&mut self, edge: Edge) -> u16 {
        let first = self.column(edge.first);
        let second = self.column(edge.second);
        let op = match edge.null_safe {
            true => NULL_SAFE,
            false => EQUAL,
        };
        self.put_or_share(Expression::Binary {
            op,
            left: first,
            right: second,
        })
    }

    fn any_column(&mut self) -> u16 {
        self.draw.universe.any(&mut self.draw.random)
    }

    /// A conjunct that equates no two columns by itself.
    fn residual(&mut self) -> u16 {
        match self.draw.random.weighted(&[34, 15, 6, 14, 10, 5, 6, 4, 6]) {
            0 => self.comparison(),
            1 => self.null_test(),
            2 => self.column_pair(2),
            3 => self.many(2),
            4 => self.and_of_equalities(),
            5 => self.put(Expression::Like),
            6 => self.put(Expression::Other),
            7 => self.alone(),
            _ => self.composite(1),
        }
    }

    /// Any expression, so many levels deep.
    fn any(&mut self, depth: usize) -> u16 {
        if depth > 0 && self.draw.random.chance(28) {
            return self.many(depth - 1);
        }
        match self.draw.random.weighted(&[36, 13, 22, 6, 8, 6, 9]) {
            0 => self.comparison(),
            1 => self.null_test(),
            2 => self.column_pair(0),
            3 => self.put(Expression::Like),
            4 => self.put(Expression::Other),
            5 => self.alone(),
            _ => self.composite(depth.saturating_sub(1)),
        }
    }

    /// A column against a literal.
    fn comparison(&mut self) -> u16 {
        let reversed = match self.draw.random.chance(12) {
            true => self.reversed_column(),
            false => None,
        };
        let (column, op) = match reversed {
            Some(column) => (column, self.range_op()),
            None => (self.any_column(), self.comparison_op()),
        };
        let scalar = self.scalar_for(column, op);
        let column = self.column(column);
        let literal = self.literal(scalar);
        self.either_way(op, column, literal)
    }

    /// Equal and unlike a little more often, the operators that compare nothing less often.
    fn comparison_op(&mut self) -> u8 {
        let weights = [26, 6, 14, 12, 11, 12, 11, 2, 2, 2, 2];
        self.draw.random.weighted(&weights) as u8
    }

    fn range_op(&mut self) -> u8 {
        let (first, last) = (LESS.into(), GREATER_OR_EQUAL.into());
        self.draw.random.between(first, last) as u8
    }

    /// A column whose lower bound is above its upper one.
    fn reversed_column(&mut self) -> Option<u16> {
        let columns = self.sheet.columns.iter().flatten();
        let reversed: Vec<u16> = columns
            .filter(|column| falls(column))
            .map(|column| column.column)
            .collect();
        self.draw.random.pick_any(&reversed)
    }

    /// A literal to compare with a column.
    fn scalar_for(&mut self, column: u16, op: u8) -> Scalar {
        let kind = self.draw.universe.kind(column);
        let known = match (LESS..=GREATER_OR_EQUAL).contains(&op) {
            true => match self.draw.random.weighted(&[72, 8, 20]) {
                0 => self.along(column),
                1 => self.bound(column),
                _ => None,
            },
            false => match self.draw.random.weighted(&[55, 8, 37]) {
                0 => self.frequent(column),
                1 => self.bound(column),
                _ => None,
            },
        };
        if let Some(scalar) = known {
            return scalar;
        }
        let random = &mut self.draw.random;
        match random.weighted(&[79, 9, 7, 5]) {
            0 => self.draw.domain.value(random, kind),
            1 => {
                let kind = scalars::lookalike(random, kind);
                self.draw.domain.value(random, kind)
            }
            2 => {
                let kind = scalars::kind(random);
                self.draw.domain.value(random, kind)
            }
            _ => Scalar::Null,
        }
    }

    /// A value of a column's sketch.
    fn frequent(&mut self, number: u16) -> Option<Scalar> {
        let column = self.profile(number)?;
        let sketch = &self.sheet.sketches[usize::from(column.sketch?)];
        let item = self.draw.random.pick_any(&sketch.items)?;
        Some(item.value)
    }

    fn profile(&self, number: u16) -> Option<&'a Column> {
        let mut columns = self.sheet.columns.iter().flatten();
        columns.find(|column| column.column == number)
    }

    /// A value between a column's bounds, or not far from them.
    fn along(&mut self, number: u16) -> Option<Scalar> {
        let column = self.profile(number)?;
        let (lower, upper) = (column.lower?, column.upper?);
        // Between bounds that fall a range is empty, so there the value lies beyond them.
        let inside = if falls(column) { 20 } else { 82 };
        let eighths = match self.draw.random.chance(inside) {
            true => self.draw.random.between(1, 7) as i64,
            false => self.draw.random.pick(&[-4, -1, 0, 8, 9, 12]),
        };
        scalars::along(&lower, &upper, eighths)
    }

    fn bound(&mut self, number: u16) -> Option<Scalar> {
        let column = self.profile(number)?;
        match self.draw.random.chance(50) {
            true => column.lower,
            false => column.upper,
        }
    }

    fn null_test(&mut self) -> u16 {
        let random = &mut self.draw.random;
        let universe = &self.draw.universe;
        let column = match random.weighted(&[50, 22, 16, 12]) {
            0 => Some(universe.any(random)),
            1 => Some(universe.unknown(random)),
            2 => random.pick_any(&universe.both),
            _ => None,
        };
        let child = match column {
            Some(column) => self.column(column),
            None => self.simple(),
        };
        let op = self.draw.random.pick(&[IS_NULL, IS_NOT_NULL]);
        self.unary(op, child)
    }

    /// Two columns under an operator that isn't below `least`.
    fn column_pair(&mut self, least: u8) -> u16 {
        let op = match least == 0 && self.draw.random.chance(70) {
            true => self.draw.random.pick(&[EQUAL, NULL_SAFE]),
            false => self.draw.random.between(least.into(), 10) as u8,
        };
        let first = self.any_column();
        let second = match self.draw.random.chance(15) {
            true => first,
            false => self.any_column(),
        };
        let first = self.column(first);
        let second = self.column(second);
        self.binary(op, first, second)
    }

    /// An And or Or of up to eight operands.
    fn many(&mut self, depth: usize) -> u16 {
        let op = self.draw.random.pick(&[AND, OR]);
        let count = self.draw.random.weighted(&[7, 10, 40, 25, 10, 4, 2, 1, 1]);
        let operands: Vec<u16> = (0..count).map(|_| self.operand(depth)).collect();
        self.run(op, &operands)
    }

    fn operand(&mut self, depth: usize) -> u16 {
        let shared = match self.draw.random.weighted(&[82, 10, 8]) {
            0 => None,
            1 => self.untaken(),
            _ => self.known_leaf(),
        };
        let operand = match shared {
            Some(operand) => operand,
            None => self.any(depth),
        };
        self.take(operand);
        operand
    }

    /// Notes that an And or Or is an operand now.
    fn take(&mut self, operand: u16) {
        if self.is_many(operand) {
            self.list.taken.push(operand);
        }
    }

    fn is_many(&self, number: u16) -> bool {
        let expression = &self.list.expressions[usize::from(number)];
        matches!(expression, Expression::Nary { .. })
    }

    /// An And or Or that is no operand yet.
    fn untaken(&mut self) -> Option<u16> {
        let numbers = 0..self.list.expressions.len() as u16;
        let open: Vec<u16> = numbers
            .filter(|number| self.is_many(*number) && !self.list.taken.contains(number))
            .collect();
        self.draw.random.pick_any(&open)
    }

    /// An expression that is no And or Or and may be named again and again.
    fn known_leaf(&mut self) -> Option<u16> {
        let number = self.draw.random.below(self.list.expressions.len()) as u16;
        match !self.list.expressions.is_empty() && !self.is_many(number) {
            true => Some(number),
            false => None,
        }
    }

    /// An And that holds an equality between columns, perhaps in an And of its own.
    fn and_of_equalities(&mut self) -> u16 {
        let mut operands = Vec::new();
        for _ in 0..self.draw.random.between(1, 2) {
            let equality = self.equality();
            operands.push(equality);
        }
        if self.draw.random.chance(60) {
            let other = self.operand(1);
            operands.push(other);
        }
        self.draw.random.shuffle(&mut operands);
        let and = self.run(AND, &operands);
        if !self.draw.random.chance(35) {
            return and;
        }
        self.take(and);
        let beside = self.operand(0);
        self.run(AND, &[and, beside])
    }

    /// An equality that is among the conjuncts too, or one of any columns.
    fn equality(&mut self) -> u16 {
        match self.draw.random.pick_any(&self.draw.edges) {
            Some(edge) if self.draw.random.chance(40) => self.edge(edge),
            _ => {
                let [left, right] = [0, 1].map(|side| {
                    let columns = self.draw.universe.profile(side);
                    self.draw.random.pick_any(&columns)
                });
                let edge = Edge {
                    first: left.unwrap_or_else(|| self.any_column()),
                    second: right.unwrap_or_else(|| self.any_column()),
                    null_safe: self.draw.random.chance(30),
                };
                self.edge(edge)
            }
        }
    }

    /// A literal or a column by itself.
    fn alone(&mut self) -> u16 {
        match self.draw.random.weighted(&[35, 15, 6, 24, 20]) {
            0 => self.literal(Scalar::Boolean(true)),
            1 => self.literal(Scalar::Boolean(false)),
            2 => self.literal(Scalar::Null),
            3 => {
                let column = self.any_column();
                self.column(column)
            }
            _ => {
                let random = &mut self.draw.random;
                let kind = scalars::kind(random);
                let scalar = self.draw.domain.value(random, kind);
                self.literal(scalar)
            }
        }
    }

    /// Something small to stand as a child.
    fn simple(&mut self) -> u16 {
        match self.draw.random.weighted(&[40, 20, 20, 20]) {
            0 => self.alone(),
            1 => self.put(Expression::Like),
            2 => self.put(Expression::Other),
            _ => self.comparison(),
        }
    }

    /// An operator over children that are anything, Ands and Ors among them.
    fn composite(&mut self, depth: usize) -> u16 {
        match self.draw.random.weighted(&[30, 12, 14, 22, 22]) {
            0 => {
                let child = self.child(depth);
                self.unary(NOT, child)
            }
            1 => {
                let child = self.child(depth);
                self.unary(NEGATE, child)
            }
            2 => {
                let child = self.child(depth);
                let op = self.draw.random.pick(&[IS_NULL, IS_NOT_NULL]);
                self.unary(op, child)
            }
            3 => self.literal_pair(),
            _ => {
                let one = self.child(depth);
                let other = self.simple();
                let op = self.draw.random.below(11) as u8;
                self.either_way(op, one, other)
            }
        }
    }

    fn child(&mut self, depth: usize) -> u16 {
        match self.draw.random.weighted(&[45, 45, 10]) {
            0 => self.simple(),
            1 => self.many(depth),
            _ => self.any(depth),
        }
    }

    fn literal_pair(&mut self) -> u16 {
        let kind = self.draw.domain.kinds[0];
        let [one, other] = [0, 1].map(|_| {
            let scalar = self.draw.domain.value(&mut self.draw.random, kind);
            self.literal(scalar)
        });
        let op = self.draw.random.below(7) as u8;
        self.binary(op, one, other)
    }
}
