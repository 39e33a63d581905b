//! Reads a sheet's bytes, or says by number and place why they are no sheet.

use crate::limits::{
    ALL_ITEMS, CLASS_COLUMNS, COLUMNS, LARGEST, LARGEST_FLOAT, LONGEST, MOST, NONE, SKETCH_ITEMS,
    SMALLEST, SMALLEST_FLOAT, counts,
};
use crate::values::{
    Class, Column, Estimate, Expression, Key, Scalar, Section, Sheet, Sketch, SketchItem, Table,
};
use crate::writer::{
    DISTINCT_NAMES, ESTIMATE_SIZE, EstimateNames, FREQUENCY_NAMES, PLAIN_NAMES, Place, SCALAR_SIZE,
};

/// Stands for a number of rows that is not known.
const UNKNOWN_ROWS: u64 = u64::MAX;

const TABLE_SIZE: usize = 2 + 8;
const KEY_SIZE: usize = 1 + 4 * 2;
const COLUMN_SIZE: usize = 3 * 2 + 2 * SCALAR_SIZE + 2 * ESTIMATE_SIZE + 2;
const SKETCH_HEAD_SIZE: usize = 8 + 2;
const SKETCH_ITEM_SIZE: usize = SCALAR_SIZE + 2 * 8;
const CLASS_HEAD_SIZE: usize = 2 + ESTIMATE_SIZE;
const EXPRESSION_SIZE: usize = 2 + 2 * 2 + SCALAR_SIZE;

/// Why bytes are no sheet: the number of the broken rule, and what broke it.
///
/// `field` has the writer's name of the field. Where no single field is to blame it is "record",
/// "head", "length" or "end". The last two belong to no section: "length" has the sheet's own end
/// as its place, and "end" the first byte that is too many.
#[derive(Debug, Clone, Copy, PartialEq, Eq)]
pub struct Refusal {
    pub number: u8,
    pub at: usize,
    pub section: Option<Section>,
    pub record: Option<usize>,
    pub item: Option<usize>,
    pub field: &'static str,
}

/// A sheet, and the places of its sections' counts.
#[derive(Debug, Clone, PartialEq)]
pub struct Read {
    pub sheet: Sheet,
    pub sections: [u16; 12],
}

/// Reads a whole sheet. The first broken rule, in the order of the bytes, is the one that is told.
pub fn read(bytes: &[u8]) -> Result<Read, Refusal> {
    if bytes.len() > LONGEST {
        return Err(sheet_refusal(1, bytes.len(), "length"));
    }
    let mut input = Input {
        bytes,
        at: 0,
        sections: [0; 12],
    };
    let sheet = input.sheet()?;
    if input.at < bytes.len() {
        return Err(sheet_refusal(10, input.at, "end"));
    }
    Ok(Read {
        sheet,
        sections: input.sections,
    })
}

/// A refusal that belongs to no section.
fn sheet_refusal(number: u8, at: usize, field: &'static str) -> Refusal {
    Refusal {
        number,
        at,
        section: None,
        record: None,
        item: None,
        field,
    }
}

/// A named field, record or head, and its place.
#[derive(Clone, Copy)]
struct Spot {
    at: usize,
    place: Place,
    name: &'static str,
}

impl Spot {
    fn refusal(self, number: u8) -> Refusal {
        Refusal {
            number,
            at: self.at,
            section: Some(self.place.section),
            record: self.place.record,
            item: self.place.item,
            field: self.name,
        }
    }
}

/// A field that was read, with what it holds.
struct Found<T> {
    spot: Spot,
    value: T,
}

impl<T: Copy> Found<T> {
    /// Goes on with this field if the test holds, and refuses it by `number` if not.
    fn rule(self, number: u8, test: impl FnOnce(T) -> bool) -> Result<Self, Refusal> {
        if test(self.value) {
            Ok(self)
        } else {
            Err(self.spot.refusal(number))
        }
    }

    /// Turns the value into another, or refuses the field by `number` if there is none.
    fn decoded<U>(
        self,
        number: u8,
        decode: impl FnOnce(T) -> Option<U>,
    ) -> Result<Found<U>, Refusal> {
        match decode(self.value) {
            Some(value) => Ok(Found {
                spot: self.spot,
                value,
            }),
            None => Err(self.spot.refusal(number)),
        }
    }
}

/// Takes the first `N` bytes away from `rest`.
pub(crate) fn take<const N: usize>(rest: &mut &[u8]) -> Option<[u8; N]> {
    let (first, left) = rest.split_first_chunk()?;
    *rest = left;
    Some(*first)
}

/// A count, a record or a head that is there whole; `rest` is what is still to be read of it.
struct Part<'a> {
    place: Place,
    at: usize,
    rest: &'a [u8],
}

impl Part<'_> {
    /// The next field. Parts are cut to the sum of their fields, so the bytes never run out here.
    fn bytes<const N: usize>(&mut self, name: &'static str) -> Result<Found<[u8; N]>, Refusal> {
        let spot = Spot {
            at: self.at,
            place: self.place,
            name,
        };
        let value = take(&mut self.rest).ok_or(spot.refusal(2))?;
        self.at += N;
        Ok(Found { spot, value })
    }

    fn u8(&mut self, name: &'static str) -> Result<Found<u8>, Refusal> {
        let Found { spot, value } = self.bytes(name)?;
        let value = u8::from_le_bytes(value);
        Ok(Found { spot, value })
    }

    fn u16(&mut self, name: &'static str) -> Result<Found<u16>, Refusal> {
        let Found { spot, value } = self.bytes(name)?;
        let value = u16::from_le_bytes(value);
        Ok(Found { spot, value })
    }

    fn u64(&mut self, name: &'static str) -> Result<Found<u64>, Refusal> {
        let Found { spot, value } = self.bytes(name)?;
        let value = u64::from_le_bytes(value);
        Ok(Found { spot, value })
    }

    fn f64(&mut self, name: &'static str) -> Result<Found<f64>, Refusal> {
        let Found { spot, value } = self.bytes(name)?;
        let value = f64::from_le_bytes(value);
        Ok(Found { spot, value })
    }

    /// A u64 figure.
    fn whole(&mut self, name: &'static str) -> Result<u64, Refusal> {
        let found = self.u64(name)?.rule(4, |whole| whole <= MOST)?;
        Ok(found.value)
    }

    /// A scalar that is there.
    fn scalar(&mut self, name: &'static str) -> Result<Found<Scalar>, Refusal> {
        self.bytes(name)?.decoded(5, decode_scalar)
    }

    /// A scalar that may be absent.
    fn bound(&mut self, name: &'static str) -> Result<Option<Scalar>, Refusal> {
        let found = self.bytes(name)?.decoded(5, decode_bound)?;
        Ok(found.value)
    }

    fn estimate(&mut self, names: &EstimateNames) -> Result<Estimate, Refusal> {
        let source = self.u8(names.source)?.rule(6, |source| source <= 4)?.value;
        let flags = self.u8(names.flags)?.rule(6, |flags| flags <= 3)?.value;
        Ok(Estimate {
            source,
            value: self.figure(names.value)?,
            lower: self.estimate_bound(names.lower, flags & 1 != 0)?,
            upper: self.estimate_bound(names.upper, flags & 2 != 0)?,
        })
    }

    fn figure(&mut self, name: &'static str) -> Result<f64, Refusal> {
        let found = self.f64(name)?.rule(4, is_figure)?;
        Ok(found.value)
    }

    fn estimate_bound(
        &mut self,
        name: &'static str,
        present: bool,
    ) -> Result<Option<f64>, Refusal> {
        if present {
            return Ok(Some(self.figure(name)?));
        }
        self.u64(name)?.rule(6, |bits| bits == 0)?;
        Ok(None)
    }
}

fn is_plus_zero(value: f64) -> bool {
    value.to_bits() == 0
}

/// Whether an estimate, or one of the last two settings, may have this figure.
fn is_figure(value: f64) -> bool {
    is_plus_zero(value) || (SMALLEST..=LARGEST).contains(&value)
}

/// Whether one of the first three settings may have this figure.
fn is_selectivity(value: f64) -> bool {
    is_plus_zero(value) || (SMALLEST..=1.0).contains(&value)
}

/// Whether a Float64 scalar may have this value.
fn is_scalar_float(value: f64) -> bool {
    is_plus_zero(value) || (SMALLEST_FLOAT..=LARGEST_FLOAT).contains(&value.abs())
}

/// A scalar that is there. Behind its own bytes there may be zeros alone.
fn decode_scalar(bytes: [u8; SCALAR_SIZE]) -> Option<Scalar> {
    let mut rest = &bytes[..];
    let [tag] = take(&mut rest)?;
    let scalar = decode_tagged(tag, &mut rest)?;
    is_zero(rest).then_some(scalar)
}

/// A scalar or, inside, none if it is absent.
fn decode_bound(bytes: [u8; SCALAR_SIZE]) -> Option<Option<Scalar>> {
    if bytes[0] == 255 {
        return is_zero(&bytes[1..]).then_some(None);
    }
    decode_scalar(bytes).map(Some)
}

/// Takes the bytes that belong to the tag.
fn decode_tagged(tag: u8, rest: &mut &[u8]) -> Option<Scalar> {
    let scalar = match tag {
        0 => Scalar::Null,
        1 => Scalar::Boolean(decode_boolean(take(rest)?)?),
        2 => Scalar::Int32(i32::from_le_bytes(take(rest)?)),
        3 => Scalar::Int64(i64::from_le_bytes(take(rest)?)),
        4 => Scalar::Float64(decode_float(take(rest)?)?),
        5 => decode_decimal(rest)?,
        6 => Scalar::Date32(i32::from_le_bytes(take(rest)?)),
        8 => Scalar::IntervalMonthDayNano {
            months: i32::from_le_bytes(take(rest)?),
            days: i32::from_le_bytes(take(rest)?),
            nanoseconds: i64::from_le_bytes(take(rest)?),
        },
        9 => Scalar::IntervalDayTime {
            days: i32::from_le_bytes(take(rest)?),
            milliseconds: i32::from_le_bytes(take(rest)?),
        },
        _ => return None,
    };
    Some(scalar)
}

pub(crate) fn decode_boolean([byte]: [u8; 1]) -> Option<bool> {
    match byte {
        0 => Some(false),
        1 => Some(true),
        _ => None,
    }
}

fn decode_float(bytes: [u8; 8]) -> Option<f64> {
    let value = f64::from_le_bytes(bytes);
    is_scalar_float(value).then_some(value)
}

fn decode_decimal(rest: &mut &[u8]) -> Option<Scalar> {
    let [precision] = take(rest)?;
    let [scale] = take(rest)?;
    let value = i64::try_from(i128::from_le_bytes(take(rest)?)).ok()?;
    let keeps = (1..=38).contains(&precision) && scale <= 22;
    keeps.then_some(Scalar::Decimal128 {
        precision,
        scale,
        value,
    })
}

fn is_zero(bytes: &[u8]) -> bool {
    bytes.iter().all(|byte| *byte == 0)
}

/// Sees that each number is above the one before it.
struct Ascending {
    last: Option<u16>,
}

impl Ascending {
    fn new() -> Self {
        Ascending { last: None }
    }

    fn takes(&mut self, number: u16) -> bool {
        let above = self.last.is_none_or(|last| last < number);
        self.last = Some(number);
        above
    }

    fn takes_column(&mut self, number: u16) -> bool {
        number < COLUMNS && self.takes(number)
    }
}

/// The bytes of a sheet, read up to `at`; `sections` has the places of the counts seen so far.
struct Input<'a> {
    bytes: &'a [u8],
    at: usize,
    sections: [u16; 12],
}

impl<'a> Input<'a> {
    /// The next `size` bytes, if the sheet has that many left.
    fn part(&mut self, place: Place, name: &'static str, size: usize) -> Result<Part<'a>, Refusal> {
        let at = self.at;
        let left = &self.bytes[at..];
        let Some(rest) = left.get(..size) else {
            return Err(Spot { at, place, name }.refusal(2));
        };
        self.at += size;
        Ok(Part { place, at, rest })
    }

    fn record(&mut self, place: Place, size: usize) -> Result<Part<'a>, Refusal> {
        self.part(place, "record", size)
    }

    fn count(&mut self, section: Section) -> Result<Found<u16>, Refusal> {
        // A place fits, since the length of the sheet was looked at before.
        self.sections[section as usize] = self.at as u16;
        let mut part = self.part(Place::section(section), "count", 2)?;
        part.u16("count")?
            .rule(3, |count| counts(section).contains(&count.into()))
    }

    /// A count within its limits and then as many records.
    fn section<T>(
        &mut self,
        section: Section,
        mut each: impl FnMut(&mut Self, Place) -> Result<T, Refusal>,
    ) -> Result<Vec<T>, Refusal> {
        let count = self.count(section)?.value;
        let place = Place::section(section);
        (0..usize::from(count))
            .map(|number| each(self, place.record(number)))
            .collect()
    }

    fn sheet(&mut self) -> Result<Sheet, Refusal> {
        let rows = self.rows()?;
        let settings = self.settings()?;
        let sketches = self.sketches()?;
        let tables = self.tables()?;
        let keys = self.section(Section::Keys, Self::key)?;
        let columns = [
            self.columns(Section::LeftColumns, sketches.len())?,
            self.columns(Section::RightColumns, sketches.len())?,
        ];
        let classes = [
            self.section(Section::LeftClasses, Self::class)?,
            self.section(Section::RightClasses, Self::class)?,
        ];
        let expressions = self.expressions()?;
        let operands = self.operands(&expressions)?;
        let conjuncts = self.conjuncts(expressions.len())?;
        Ok(Sheet {
            rows,
            settings,
            sketches,
            tables,
            keys,
            columns,
            classes,
            expressions,
            operands,
            conjuncts,
        })
    }

    fn rows(&mut self) -> Result<[Estimate; 2], Refusal> {
        self.count(Section::Rows)?;
        let place = Place::section(Section::Rows);
        Ok([self.row(place.record(0))?, self.row(place.record(1))?])
    }

    fn row(&mut self, place: Place) -> Result<Estimate, Refusal> {
        self.record(place, ESTIMATE_SIZE)?.estimate(&PLAIN_NAMES)
    }

    fn settings(&mut self) -> Result<[f64; 5], Refusal> {
        self.count(Section::Settings)?;
        let mut settings = [0.0; 5];
        for (number, setting) in settings.iter_mut().enumerate() {
            *setting = self.setting(number)?;
        }
        Ok(settings)
    }

    fn setting(&mut self, number: usize) -> Result<f64, Refusal> {
        let place = Place::section(Section::Settings).record(number);
        let may_be = if number < 3 {
            is_selectivity
        } else {
            is_figure
        };
        let found = self.record(place, 8)?.f64("setting")?.rule(4, may_be)?;
        Ok(found.value)
    }

    fn sketches(&mut self) -> Result<Vec<Sketch>, Refusal> {
        let mut room = ALL_ITEMS;
        self.section(Section::Sketches, |input, place| {
            input.sketch(place, &mut room)
        })
    }

    /// `room` is the number of items that this sketch and later ones may still have.
    fn sketch(&mut self, place: Place, room: &mut usize) -> Result<Sketch, Refusal> {
        let mut head = self.part(place, "head", SKETCH_HEAD_SIZE)?;
        let population = head.whole("population")?;
        let most = (*room).min(SKETCH_ITEMS);
        let n = head.u16("n")?.rule(3, |n| usize::from(n) <= most)?.value;
        *room -= usize::from(n);
        let mut items = Vec::new();
        for number in 0..usize::from(n) {
            let item = self.sketch_item(place.item(number), &items)?;
            items.push(item);
        }
        Ok(Sketch { population, items })
    }

    fn sketch_item(&mut self, place: Place, before: &[SketchItem]) -> Result<SketchItem, Refusal> {
        let mut part = self.record(place, SKETCH_ITEM_SIZE)?;
        let value = part
            .scalar("scalar")?
            .rule(5, |value| value != Scalar::Null)?
            .rule(7, |value| before.iter().all(|item| item.value != value))?
            .value;
        Ok(SketchItem {
            value,
            lower: part.whole("lower")?,
            error: part.whole("error")?,
        })
    }

    fn tables(&mut self) -> Result<Vec<Table>, Refusal> {
        let mut ascending = Ascending::new();
        self.section(Section::Tables, |input, place| {
            input.table(place, &mut ascending)
        })
    }

    fn table(&mut self, place: Place, ascending: &mut Ascending) -> Result<Table, Refusal> {
        let mut part = self.record(place, TABLE_SIZE)?;
        let table = part.u16("table")?.rule(7, |table| ascending.takes(table))?;
        let rows = part
            .u64("rows")?
            .rule(4, |rows| rows <= MOST || rows == UNKNOWN_ROWS)?;
        Ok(Table {
            table: table.value,
            rows: Some(rows.value).filter(|rows| *rows != UNKNOWN_ROWS),
        })
    }

    fn key(&mut self, place: Place) -> Result<Key, Refusal> {
        let mut part = self.record(place, KEY_SIZE)?;
        let kind = part.u8("kind")?.rule(6, |kind| kind == 1 || kind == 2)?;
        let unique = kind.value == 1;
        let key = (part.u16("table")?.value, part.u16("column name")?.value);
        let table = part
            .u16("referenced table")?
            .rule(6, |table| !unique || table == NONE)?;
        let name = part
            .u16("referenced name")?
            .rule(6, |name| !unique || name == NONE)?;
        if unique {
            return Ok(Key::Unique { key });
        }
        let referenced = (table.value, name.value);
        Ok(Key::Foreign { key, referenced })
    }

    fn columns(&mut self, section: Section, sketches: usize) -> Result<Vec<Column>, Refusal> {
        let mut ascending = Ascending::new();
        self.section(section, |input, place| {
            input.column(place, &mut ascending, sketches)
        })
    }

    fn column(
        &mut self,
        place: Place,
        ascending: &mut Ascending,
        sketches: usize,
    ) -> Result<Column, Refusal> {
        let mut part = self.record(place, COLUMN_SIZE)?;
        let column = part
            .u16("column")?
            .rule(7, |column| ascending.takes_column(column))?;
        Ok(Column {
            column: column.value,
            base: column_base(&mut part)?,
            lower: part.bound("lower")?,
            upper: part.bound("upper")?,
            frequency: part.estimate(&FREQUENCY_NAMES)?,
            distinct: part.estimate(&DISTINCT_NAMES)?,
            sketch: column_sketch(&mut part, sketches)?,
        })
    }

    fn class(&mut self, place: Place) -> Result<Class, Refusal> {
        let mut head = self.part(place, "head", CLASS_HEAD_SIZE)?;
        let n = head
            .u16("n")?
            .rule(3, |n| CLASS_COLUMNS.contains(&n.into()))?
            .value;
        let distinct = head.estimate(&DISTINCT_NAMES)?;
        let mut ascending = Ascending::new();
        let columns = (0..usize::from(n))
            .map(|number| self.class_column(place.item(number), &mut ascending))
            .collect::<Result<_, _>>()?;
        Ok(Class { distinct, columns })
    }

    fn class_column(&mut self, place: Place, ascending: &mut Ascending) -> Result<u16, Refusal> {
        let found = self
            .record(place, 2)?
            .u16("column")?
            .rule(7, |column| ascending.takes_column(column))?;
        Ok(found.value)
    }

    fn expressions(&mut self) -> Result<Vec<Expression>, Refusal> {
        let count = self.count(Section::Expressions)?.value;
        let place = Place::section(Section::Expressions);
        let mut next_operand = 0;
        let mut expressions = Vec::new();
        for number in 0..count {
            let place = place.record(usize::from(number));
            let mut part = self.record(place, EXPRESSION_SIZE)?;
            let expression = expression(&mut part, number, next_operand)?;
            next_operand += run_length(&expression);
            expressions.push(expression);
        }
        Ok(expressions)
    }

    fn operands(&mut self, expressions: &[Expression]) -> Result<Vec<u16>, Refusal> {
        let in_runs: usize = expressions.iter().map(run_length).sum();
        self.count(Section::Operands)?
            .rule(9, |count| usize::from(count) == in_runs)?;
        let place = Place::section(Section::Operands);
        let mut operands = Vec::new();
        // The count is the number of parents, as was just seen.
        for (number, parent) in parents(expressions).into_iter().enumerate() {
            let operand = self.operand(place.record(number), parent, expressions, &operands)?;
            operands.push(operand);
        }
        Ok(operands)
    }

    fn operand(
        &mut self,
        place: Place,
        parent: usize,
        expressions: &[Expression],
        before: &[u16],
    ) -> Result<u16, Refusal> {
        let found = self
            .record(place, 2)?
            .u16("expression")?
            .rule(8, |operand| usize::from(operand) < parent)?
            .rule(9, |operand| {
                !is_nary(expressions, operand) || !before.contains(&operand)
            })?;
        Ok(found.value)
    }

    fn conjuncts(&mut self, expressions: usize) -> Result<Vec<u16>, Refusal> {
        self.section(Section::Conjuncts, |input, place| {
            let found = input
                .record(place, 2)?
                .u16("expression")?
                .rule(8, |conjunct| usize::from(conjunct) < expressions)?;
            Ok(found.value)
        })
    }
}

/// The base of a column. If only one of the two numbers is missing, the name is the one refused.
fn column_base(part: &mut Part) -> Result<Option<(u16, u16)>, Refusal> {
    let table = part.u16("base table")?.value;
    let name = part
        .u16("base name")?
        .rule(6, |name| (name == NONE) == (table == NONE))?
        .value;
    Ok(Some((table, name)).filter(|_| table != NONE))
}

fn column_sketch(part: &mut Part, sketches: usize) -> Result<Option<u16>, Refusal> {
    let found = part
        .u16("sketch")?
        .rule(8, |sketch| sketch == NONE || usize::from(sketch) < sketches)?;
    Ok(Some(found.value).filter(|sketch| *sketch != NONE))
}

/// The expression of this number; a run of operands must start at `next_operand`.
fn expression(part: &mut Part, number: u16, next_operand: usize) -> Result<Expression, Refusal> {
    let kind = part.u8("kind")?.rule(6, |kind| kind <= 6)?.value;
    let op = part.u8("op")?.rule(6, |op| op < op_end(kind))?.value;
    let a = part.u16("a")?;
    let a = match kind {
        1 => a.rule(7, |column| column < COLUMNS),
        2 | 3 => a.rule(8, |child| child < number),
        4 => a.rule(9, |first| usize::from(first) == next_operand),
        _ => a.rule(6, |unused| unused == 0),
    }?
    .value;
    let b = part.u16("b")?;
    let b = match kind {
        3 => b.rule(8, |child| child < number),
        4 => Ok(b),
        _ => b.rule(6, |unused| unused == 0),
    }?
    .value;
    if kind == 0 {
        return Ok(Expression::Literal(part.scalar("scalar")?.value));
    }
    part.bytes::<SCALAR_SIZE>("scalar")?
        .rule(6, |unused| is_zero(&unused))?;
    Ok(without_scalar(kind, op, a, b))
}

/// The expression of a kind other than literal.
fn without_scalar(kind: u8, op: u8, a: u16, b: u16) -> Expression {
    match kind {
        1 => Expression::Column(a),
        2 => Expression::Unary { op, child: a },
        3 => Expression::Binary {
            op,
            left: a,
            right: b,
        },
        4 => Expression::Nary {
            op,
            first: a,
            count: b,
        },
        5 => Expression::Like,
        _ => Expression::Other,
    }
}

/// The first op that a kind does not have. A kind without ops has a zero there.
fn op_end(kind: u8) -> u8 {
    match kind {
        2 => 4,
        3 => 11,
        4 => 2,
        _ => 1,
    }
}

/// The number of operands that an expression takes from their section.
fn run_length(expression: &Expression) -> usize {
    match expression {
        Expression::Nary { count, .. } => usize::from(*count),
        _ => 0,
    }
}

/// For each operand in turn, the expression in whose run it stands.
fn parents(expressions: &[Expression]) -> Vec<usize> {
    expressions
        .iter()
        .enumerate()
        .flat_map(|(number, expression)| std::iter::repeat_n(number, run_length(expression)))
        .collect()
}

/// Whether this number names an And or an Or.
fn is_nary(expressions: &[Expression], number: u16) -> bool {
    matches!(
        expressions.get(usize::from(number)),
        Some(Expression::Nary { .. })
    )
}

#[cfg(test)]
mod tests;
