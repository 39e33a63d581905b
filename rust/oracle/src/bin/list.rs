//! Writes a list for the program `sheet_cases`, which replays it: the commands that standard input
//! has, then sheets with the source's answers, and refused sheets. Standard error gets the lines that
//! the program has to write. `tests/make_sheet_cases.py` describes the commands.

use oracle::answer::{Answers, predicate_bytes, split_bytes};
use oracle::copies::{BLOCKS, SLIPS};
use sheet::reader::{Read, read};
use sheet::values::Sheet;
use sheet::worked;
use std::io::{self, Read as _, Write};
use std::process::ExitCode;

/// The sheets are chosen from those of so many seeds.
const SEEDS: u64 = 30_000;
/// The longest sheet that is listed, but for some that are longer than LONG.
const LONGEST: usize = 3_000;
const LONG: usize = 30_000;
const LONG_SHEETS: usize = 2;
/// At least so many accepted sheets are listed.
const ACCEPTED: usize = 420;
/// At least so many listed sheets reach each block that these seeds reach, and show each slip.
const TIMES: usize = 4;
/// How many listed sheets are refused with each number but 1.
const REFUSED: usize = 8;

const STORE_SHEET: u8 = 1;
const REFUSED_SHEET: u8 = 2;
const ACCEPTED_SHEET: u8 = 3;
const PREFIXES: u8 = 4;
const STORE_ANSWER: u8 = 5;
const JOIN: u8 = 6;
const PREDICATE: u8 = 7;
const SPLIT: u8 = 8;

/// A command: its kind, a number, two bytes and four bytes of its own, and 24 more.
fn command(kind: u8, number: u8, small: u16, place: usize, rest: &[u8]) -> [u8; 32] {
    let mut bytes = [0; 32];
    bytes[0] = kind;
    bytes[1] = number;
    bytes[2..4].copy_from_slice(&small.to_le_bytes());
    bytes[4..8].copy_from_slice(&(place as u32).to_le_bytes());
    bytes[8..8 + rest.len()].copy_from_slice(rest);
    bytes
}

/// What the replaying program's buffer holds, as far as this list stored it.
struct Buffer {
    store: u8,
    holds: Vec<Option<u8>>,
}

impl Buffer {
    fn new(store: u8) -> Self {
        Buffer {
            store,
            holds: vec![None; 65_536],
        }
    }

    /// Stores what the buffer does not hold yet.
    fn put(&mut self, bytes: &[u8], list: &mut Vec<[u8; 32]>) {
        let mut at = 0;
        while at < bytes.len() {
            if self.holds[at] == Some(bytes[at]) {
                at += 1;
                continue;
            }
            let part = &bytes[at..bytes.len().min(at + 24)];
            list.push(command(self.store, 0, part.len() as u16, at, part));
            for (held, byte) in self.holds[at..].iter_mut().zip(part) {
                *held = Some(*byte);
            }
            at += part.len();
        }
    }
}

struct List {
    commands: Vec<[u8; 32]>,
    sheet: Buffer,
    answer: Buffer,
}

/// Where the bytes that are to come out stand and how many they are, as a claim has it.
fn extent(place: usize, length: usize) -> [u8; 8] {
    let mut bytes = [0; 8];
    bytes[..4].copy_from_slice(&(place as u32).to_le_bytes());
    bytes[4..].copy_from_slice(&(length as u32).to_le_bytes());
    bytes
}

/// What is to come out of an accepted sheet, each with its kind and its expression: where the sections
/// are, the join, then all predicates and all splits.
fn expected(read: &Read, answers: &Answers) -> Vec<(u8, u16, Vec<u8>)> {
    let places = read.sections.iter().flat_map(|place| place.to_le_bytes());
    let mut all = vec![
        (ACCEPTED_SHEET, 0, places.collect()),
        (JOIN, 0, answers.join.bytes()),
    ];
    let predicates = answers.predicates.iter().map(predicate_bytes);
    all.extend(
        (0..)
            .zip(predicates)
            .map(|(e, bytes)| (PREDICATE, e, bytes)),
    );
    let splits = answers.splits.iter().map(|split| split_bytes(split));
    all.extend((0..).zip(splits).map(|(e, bytes)| (SPLIT, e, bytes)));
    all
}

impl List {
    fn refused(&mut self, bytes: &[u8], number: u8) {
        self.sheet.put(bytes, &mut self.commands);
        self.commands
            .push(command(REFUSED_SHEET, number, 0, bytes.len(), &[]));
    }

    /// A sheet, what is to come out one behind the other, and a claim for each.
    fn accepted(&mut self, bytes: &[u8], read: &Read, answers: &Answers) {
        let mut all = Vec::new();
        let mut claims = Vec::new();
        for (kind, number, expected) in expected(read, answers) {
            let extent = extent(all.len(), expected.len());
            claims.push(command(kind, 0, number, bytes.len(), &extent));
            all.extend(expected);
        }
        self.sheet.put(bytes, &mut self.commands);
        self.answer.put(&all, &mut self.commands);
        self.commands.extend(claims);
    }
}

/// What a sheet shows: the blocks that it reaches, and the slips that it tells.
fn shows(sheet: &Sheet) -> Vec<bool> {
    let source = oracle::copies::watched::answers(sheet);
    let mut shown = oracle::watch::take_reached().to_vec();
    shown.extend(SLIPS.iter().map(|(_, answers)| answers(sheet) != source));
    shown
}

/// The seeds of the first sheets that are longer than LONG.
fn long_sheets() -> Vec<u64> {
    let length = |seed: u64| sheet::writer::write(&sheet::generator::sheet(seed)).len();
    (0..SEEDS)
        .filter(|seed| length(*seed) > LONG)
        .take(LONG_SHEETS)
        .collect()
}

/// The seeds of sheets that between them show everything a few times, and of some more.
fn chosen() -> Vec<u64> {
    let mut times = vec![0; BLOCKS.len() + SLIPS.len()];
    let mut seeds = long_sheets();
    let mut others = Vec::new();
    for seed in 0..SEEDS {
        let sheet = sheet::generator::sheet(seed);
        if sheet::writer::write(&sheet).len() > LONGEST {
            continue;
        }
        let shown = shows(&sheet);
        if shown
            .iter()
            .zip(&times)
            .any(|(shown, times)| *shown && *times < TIMES)
        {
            times
                .iter_mut()
                .zip(&shown)
                .for_each(|(times, shown)| *times += usize::from(*shown));
            seeds.push(seed);
        } else {
            others.push(seed);
        }
    }
    let missing = ACCEPTED.saturating_sub(seeds.len());
    seeds.extend(others.into_iter().take(missing));
    seeds
}

fn list_accepted(list: &mut List) {
    let drawn = chosen().into_iter().map(sheet::generator::sheet);
    for sheet in worked::accepted().into_iter().chain(drawn) {
        let bytes = sheet::writer::write(&sheet);
        let read = read(&bytes).unwrap_or_else(|refusal| panic!("{sheet:?}: {refusal:?}"));
        let answers = oracle::copies::with_power::answers(&read.sheet);
        list.accepted(&bytes, &read, &answers);
    }
}

/// Whether a refused sheet is listed, after so many with its number. One that is too long takes many
/// stores, so there is one.
fn wanted(number: u8, bytes: &[u8], times: usize) -> bool {
    if number == 1 {
        return bytes.len() == 65_536 && times < 1;
    }
    bytes.len() <= LONGEST && times < REFUSED
}

fn list_refused(list: &mut List) {
    for sheet in worked::refused() {
        list.refused(&sheet::writer::write(&sheet), 3);
    }
    let mut times = [0; 11];
    for seed in 0..SEEDS {
        let bytes = sheet::damage::damaged(seed, &sheet::generator::sheet(seed));
        let Err(refusal) = read(&bytes) else {
            continue;
        };
        let so_far = &mut times[refusal.number as usize];
        if wanted(refusal.number, &bytes, *so_far) {
            *so_far += 1;
            list.refused(&bytes, refusal.number);
        }
    }
}

/// What the program has to write: how many cases a line counts, none of which differs.
fn lines(commands: &[[u8; 32]]) -> Vec<String> {
    let counted = |of: &dyn Fn(&[u8; 32]) -> bool| commands.iter().filter(|c| of(c)).count();
    let of_kind = |kind: u8| counted(&|c| c[0] == kind);
    let refused = (1..=10).map(|number| {
        let cases = counted(&|c| c[0] == REFUSED_SHEET && c[1] == number);
        (format!("refused by {number}"), cases)
    });
    let prefixes = commands.iter().filter(|c| c[0] == PREFIXES);
    let prefixes = prefixes
        .map(|c| u32::from_le_bytes([c[4], c[5], c[6], c[7]]) as usize)
        .sum();
    let others = [
        ("accepted", of_kind(ACCEPTED_SHEET)),
        ("prefixes", prefixes),
        ("stores", of_kind(STORE_SHEET) + of_kind(STORE_ANSWER)),
        ("joins", of_kind(JOIN)),
        ("predicates", of_kind(PREDICATE)),
        ("splits", of_kind(SPLIT)),
        (
            "unknown",
            counted(&|c| !(STORE_SHEET..=SPLIT).contains(&c[0])),
        ),
    ];
    let others = others.map(|(name, cases)| (name.to_string(), cases));
    refused
        .chain(others)
        .map(|(name, cases)| format!("{name}: {cases} cases, 0 differ"))
        .collect()
}

/// The commands that standard input has.
fn given() -> Result<Vec<[u8; 32]>, String> {
    let mut bytes = Vec::new();
    io::stdin()
        .read_to_end(&mut bytes)
        .map_err(|why| why.to_string())?;
    let (commands, torn) = bytes.as_chunks::<32>();
    if !torn.is_empty() {
        return Err("the last command on standard input is torn".to_string());
    }
    Ok(commands.to_vec())
}

fn write_list() -> Result<(), String> {
    let mut list = List {
        commands: given()?,
        sheet: Buffer::new(STORE_SHEET),
        answer: Buffer::new(STORE_ANSWER),
    };
    list_accepted(&mut list);
    list_refused(&mut list);
    for line in lines(&list.commands) {
        eprintln!("{line}");
    }
    io::stdout()
        .write_all(&list.commands.concat())
        .map_err(|why| why.to_string())
}

fn main() -> ExitCode {
    match write_list() {
        Ok(()) => ExitCode::SUCCESS,
        Err(why) => {
            eprintln!("list: {why}");
            ExitCode::FAILURE
        }
    }
}
