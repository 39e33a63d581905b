//! Base columns, the tables that are listed, and the keys.

use super::Draw;
use crate::limits::{MOST, NONE, most};
use crate::random::Random;
use crate::values::{Key, Section, Sheet, Table};

type Base = (u16, u16);

pub fn fill(draw: &mut Draw, sheet: &mut Sheet) {
    let labels = [0, 1].map(|_| labels(&mut draw.random));
    bases(draw, sheet, &labels);
    tables(draw, sheet, &labels);
    keys(draw, sheet);
}

/// The tables of one side. A table may be used by both.
fn labels(random: &mut Random) -> Vec<u16> {
    let count = random.weighted(&[0, 60, 30, 10]);
    (0..count)
        .map(|_| match random.chance(92) {
            true => random.below(6) as u16,
            false => random.pick(&[NONE - 1, 0x8000, 255, 256, 1_000]),
        })
        .collect()
}

fn bases(draw: &mut Draw, sheet: &mut Sheet, labels: &[Vec<u16>; 2]) {
    let rate = match draw.style.catalogued {
        true => 92,
        false => 60,
    };
    for side in [0, 1] {
        for column in &mut sheet.columns[side] {
            if draw.random.chance(rate) {
                column.base = Some(base(&mut draw.random, &labels[side]));
            }
        }
    }
    share_bases(draw, sheet);
}

fn base(random: &mut Random, labels: &[u16]) -> Base {
    let name = match random.chance(95) {
        true => random.below(8) as u16,
        false => random.pick(&[NONE - 1, 0x7fff, 500]),
    };
    (random.pick(labels), name)
}

/// A column in both profiles mostly has the same base in both.
fn share_bases(draw: &mut Draw, sheet: &mut Sheet) {
    let [left, right] = &mut sheet.columns;
    for column in right {
        let twin = left.iter().find(|other| other.column == column.column);
        if let Some(twin) = twin
            && draw.random.chance(60)
        {
            column.base = twin.base;
        }
    }
}

fn tables(draw: &mut Draw, sheet: &mut Sheet, labels: &[Vec<u16>; 2]) {
    let rate = match draw.style.catalogued {
        true => 90,
        false => 60,
    };
    for side in [0, 1] {
        for &label in &labels[side] {
            if draw.random.chance(rate) {
                let rows = rows(draw, sheet, side);
                list(sheet, label, rows);
            }
        }
    }
    for _ in 0..draw.random.weighted(&[60, 25, 15]) {
        let label = draw.random.pick(&[3, 7, 40, NONE, NONE - 2, 9_999]);
        let rows = rows(draw, sheet, 0);
        list(sheet, label, rows);
    }
    sheet.tables.sort_by_key(|table| table.table);
}

/// Lists a table that isn't listed yet.
fn list(sheet: &mut Sheet, table: u16, rows: Option<u64>) {
    if sheet.tables.iter().all(|listed| listed.table != table) {
        sheet.tables.push(Table { table, rows });
    }
}

/// What is known of a table's rows, given the side whose columns come from it.
fn rows(draw: &mut Draw, sheet: &Sheet, side: usize) -> Option<u64> {
    let own = whole(sheet.rows[side].value);
    let other = whole(sheet.rows[1 - side].value);
    match draw.random.weighted(&[74, 6, 5, 5, 5, 5]) {
        0 => Some(own),
        1 => Some(other),
        2 => Some((own + 1).min(MOST)),
        3 => Some(own.saturating_sub(1)),
        4 => None,
        _ => Some(draw.random.pick(&[0, MOST, 1, 1_000])),
    }
}

fn whole(rows: f64) -> u64 {
    (rows as u64).min(MOST)
}

fn keys(draw: &mut Draw, sheet: &mut Sheet) {
    for edge in draw.edges.clone() {
        if let Some((left, right)) = edge.oriented(&draw.universe) {
            edge_keys(draw, sheet, left, right);
        }
    }
    for _ in 0..draw.random.weighted(&[50, 25, 15, 10]) {
        let key = any_key(draw, sheet);
        sheet.keys.push(key);
    }
    draw.random.shuffle(&mut sheet.keys);
    sheet.keys.truncate(most(Section::Keys));
}

fn base_of(sheet: &Sheet, side: usize, number: u16) -> Option<Base> {
    let mut columns = sheet.columns[side].iter();
    columns.find(|column| column.column == number)?.base
}

/// Keys that bear on an edge, or that nearly do.
fn edge_keys(draw: &mut Draw, sheet: &mut Sheet, left: u16, right: u16) {
    let (Some(left), Some(right)) = (base_of(sheet, 0, left), base_of(sheet, 1, right)) else {
        return;
    };
    let random = &mut draw.random;
    let mut put = |percent: usize, key: Key| {
        if random.chance(percent) {
            let key = match random.chance(90) {
                true => key,
                false => nearly(random, key),
            };
            sheet.keys.push(key);
        }
    };
    let foreign = |key, referenced| Key::Foreign { key, referenced };
    put(28, foreign(left, right));
    put(14, foreign(right, left));
    put(18, Key::Unique { key: right });
    put(18, Key::Unique { key: left });
}

/// A key that differs in one place.
fn nearly(random: &mut Random, key: Key) -> Key {
    let other = |(table, name): Base, first: bool| match first {
        true => (table ^ 1, name),
        false => (table, name ^ 1),
    };
    let first = random.chance(50);
    match key {
        Key::Unique { key } => Key::Unique {
            key: other(key, first),
        },
        Key::Foreign { key, referenced } => match random.chance(50) {
            true => Key::Foreign {
                key: other(key, first),
                referenced,
            },
            false => Key::Foreign {
                key,
                referenced: other(referenced, first),
            },
        },
    }
}

/// A key of any column, or of none that the sheet has.
fn any_key(draw: &mut Draw, sheet: &Sheet) -> Key {
    let key = any_base(draw, sheet);
    match draw.random.chance(50) {
        true => Key::Unique { key },
        false => Key::Foreign {
            key,
            referenced: any_base(draw, sheet),
        },
    }
}

fn any_base(draw: &mut Draw, sheet: &Sheet) -> Base {
    let random = &mut draw.random;
    let bases: Vec<Base> = sheet
        .columns
        .iter()
        .flatten()
        .flat_map(|c| c.base)
        .collect();
    match random.pick_any(&bases) {
        Some(base) if random.chance(75) => base,
        _ => {
            let mut label = || random.pick(&[0, 1, 2, 3, NONE, NONE - 1, 700]);
            (label(), label())
        }
    }
}
