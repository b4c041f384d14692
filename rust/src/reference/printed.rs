//! The printed tables and exhibits, read once from the tab-separated files of `data/`, and how they are read.
//!
//! A file that is not of the printed form is a mistake of this repository and not of a register, so it panics.

use super::card::Ground;
use super::units::{Concentration, Miles, PoundsPerMinute};
use std::collections::{BTreeMap, HashSet};
use std::ops::Range;
use std::sync::LazyLock;

const NEAREST: Miles = Miles::from_hundredths(10);
/// 25 miles, beyond which nothing is told apart.
pub(super) const LIMIT: Miles = Miles::from_hundredths(2_500);

/// No heat of combustion may be above this, in kilojoules per kilogram.
const HIGHEST_HEAT: u64 = 150_000;

/// The columns of Exhibits B-2 and B-3 that say how a plume spreads, in the worst case and in alternative ones.
const PLUME_COLUMNS: [&str; 2] = ["worst_case_table", "alternative_case_table"];

/// The columns of Exhibit B-4 beside the one at 25 °C, which is a factor of 1.
const TEMPERATURE_COLUMNS: [&str; 5] = ["tcf30", "tcf35", "tcf40", "tcf45", "tcf50"];
/// The midpoints between the columns of Exhibit B-4, in tenths of a degree Celsius.
const TEMPERATURE_CUTS: [i16; 5] = [275, 325, 375, 425, 475];

/// Tables 1 to 12.
const WORST_CASE: [&str; 12] = [
    include_str!("../../../data/table01.tsv"),
    include_str!("../../../data/table02.tsv"),
    include_str!("../../../data/table03.tsv"),
    include_str!("../../../data/table04.tsv"),
    include_str!("../../../data/table05.tsv"),
    include_str!("../../../data/table06.tsv"),
    include_str!("../../../data/table07.tsv"),
    include_str!("../../../data/table08.tsv"),
    include_str!("../../../data/table09.tsv"),
    include_str!("../../../data/table10.tsv"),
    include_str!("../../../data/table11.tsv"),
    include_str!("../../../data/table12.tsv"),
];
/// Tables 14 to 25, in the same order.
const ALTERNATIVE: [&str; 12] = [
    include_str!("../../../data/table14.tsv"),
    include_str!("../../../data/table15.tsv"),
    include_str!("../../../data/table16.tsv"),
    include_str!("../../../data/table17.tsv"),
    include_str!("../../../data/table18.tsv"),
    include_str!("../../../data/table19.tsv"),
    include_str!("../../../data/table20.tsv"),
    include_str!("../../../data/table21.tsv"),
    include_str!("../../../data/table22.tsv"),
    include_str!("../../../data/table23.tsv"),
    include_str!("../../../data/table24.tsv"),
    include_str!("../../../data/table25.tsv"),
];
/// Where the dense ones stand among twelve tables.
const DENSE: Range<usize> = 4..8;

static PRINTED: LazyLock<Printed> = LazyLock::new(Printed::read);

/// All that is printed.
pub fn printed() -> &'static Printed {
    &PRINTED
}

/// The exhibits and the tables, with their entries in use.
pub struct Printed {
    toxics: Listed<Toxic>,
    solutes: Listed<Solute>,
    flammables: Listed<Flammable>,
    worst_case: Tables,
    alternative: Tables,
}

/// The tables of toxic releases, four of each form, in one weather.
pub struct Tables {
    neutral: [RatioTable; 4],
    dense: [RateTable; 4],
    specific: [RateTable; 4],
}

/// Substances in the order of their CAS numbers, each found at one look by what its number leaves over in a division.
struct Listed<S> {
    substances: Vec<S>,
    /// The least number by which no two CAS numbers leave the same remainder.
    divisor: u32,
    /// For each remainder the CAS number that leaves it, with its substance's place.
    slots: Vec<Option<(u32, usize)>>,
}

/// A row of Exhibit B-1, B-2 or B-3.
pub struct Toxic {
    /// CAS number without hyphens.
    pub cas: u32,
    /// DF, in hundredths.
    pub density_factor: u64,
    /// The endpoint, in hundred-thousandths of a mg/L.
    pub endpoint: u64,
    /// What the exhibit's worst-case column says.
    pub plume: Plume,
    /// What its alternative-case column says. Exhibit B-1 has one column for both.
    pub alternative_plume: Plume,
    /// Which exhibit the row is of, with the liquid factors that it prints.
    pub phase: Phase,
    /// The column of Tables 5 to 8, and of 18 to 21, that is closest to the endpoint.
    dense_column: usize,
}

/// Which of the toxic exhibits a row is of. Liquid factors are in millionths.
pub enum Phase {
    /// Exhibit B-1, whose gases have a factor at boiling alone.
    Gas {
        /// LFB.
        lfb: u64,
    },
    /// Exhibit B-2.
    Liquid(LiquidFactors),
    /// Exhibit B-3, whose solutions are at 25 °C and have no factor at boiling.
    Solution {
        /// LFA at a wind of 1.5 metres per second.
        lfa: u64,
    },
}

/// The factors of a liquid.
pub struct LiquidFactors {
    /// LFA, in millionths.
    pub lfa: u64,
    /// LFB, in millionths.
    pub lfb: u64,
    /// The row of Exhibit B-4, from 25 °C on.
    by_column: [Factor; 6],
}

/// A substance of Exhibit B-3.
pub struct Solute {
    /// CAS number without hyphens.
    pub cas: u32,
    /// The concentrations that are printed for it, rising, each with its row.
    rows: Vec<(Concentration, Toxic)>,
}

/// An entry of Exhibit B-4.
#[derive(Debug, Clone, Copy, PartialEq, Eq)]
pub enum Factor {
    /// TCF, in hundredths.
    Times(u64),
    /// LFB is printed instead of a factor.
    UseBoiling,
    /// Marked as without data.
    NoData,
}

/// How a plume spreads.
#[derive(Debug, Clone, Copy, PartialEq, Eq)]
pub enum Plume {
    /// Neutrally buoyant.
    Neutral,
    /// Heavier than air.
    Dense,
}

/// A row of Exhibit C-1.
pub struct Flammable {
    /// CAS number without hyphens.
    pub cas: u32,
    /// HC, in kilojoules per kilogram.
    pub heat_of_combustion: u64,
}

/// A table for toxic releases, by its number in the worst case; a substance's own table has a column for each ground.
/// Likely scenarios are read from the table of the same form whose number is thirteen higher.
pub(super) enum Table {
    Neutral(u8),
    Dense(u8),
    Specific(u8, Ground),
}

/// What a table has at a rate.
#[derive(Debug, Clone, Copy, PartialEq, Eq)]
pub(super) enum Reading {
    /// A range's entry in use, or that of the row with this rate, or one that holds for all rates beyond the rows.
    Entry(Miles),
    /// The two rows that the rate lies between.
    Between(Row, Row),
}

/// A row's rate, with its entry in use in some column.
#[derive(Debug, Clone, Copy, PartialEq, Eq)]
pub(super) struct Row {
    pub rate: PoundsPerMinute,
    pub miles: Miles,
}

/// One of Tables 1 to 4 or 14 to 17.
pub struct RatioTable {
    /// The bounds that two ranges share, rising, in tenths.
    bounds: Vec<u64>,
    /// The entries in use, one more than the shared bounds.
    in_use: Vec<Miles>,
    /// Where the last range ends, unless it is open.
    end: Option<u64>,
}

/// One of Tables 5 to 12 or 18 to 25.
pub struct RateTable {
    /// The rates of the rows, rising, in thousandths.
    rates: Vec<u64>,
    /// The midpoints of neighbouring rows, in thousandths.
    cuts: Vec<u64>,
    /// The entries in use, down each column.
    in_use: Vec<Vec<Miles>>,
}

impl Printed {
    /// The toxic substance of a CAS number, in B-1 or B-2.
    pub fn toxic(&self, cas: u32) -> Option<&Toxic> {
        self.toxics.find(cas)
    }

    /// The substance of a CAS number that B-3 has solutions of.
    pub fn solute(&self, cas: u32) -> Option<&Solute> {
        self.solutes.find(cas)
    }

    /// The flammable substance of a CAS number.
    pub fn flammable(&self, cas: u32) -> Option<&Flammable> {
        self.flammables.find(cas)
    }

    /// All toxic substances of B-1 and B-2.
    pub fn toxics(&self) -> &[Toxic] {
        &self.toxics.substances
    }

    /// All substances of B-3.
    pub fn solutes(&self) -> &[Solute] {
        &self.solutes.substances
    }

    /// All flammable substances.
    pub fn flammables(&self) -> &[Flammable] {
        &self.flammables.substances
    }

    /// Tables 1 to 12.
    pub fn worst_case(&self) -> &Tables {
        &self.worst_case
    }

    /// Tables 14 to 25.
    pub fn alternative(&self) -> &Tables {
        &self.alternative
    }

    fn read() -> Self {
        let worst_case = WORST_CASE.map(Sheet::cut);
        let alternative = ALTERNATIVE.map(Sheet::cut);
        let endpoints = shared_endpoints(worst_case[DENSE].iter().chain(&alternative[DENSE]));
        Printed {
            toxics: read_toxics(&endpoints),
            solutes: read_solutes(&endpoints),
            flammables: read_flammables(),
            worst_case: Tables::read(&worst_case),
            alternative: Tables::read(&alternative),
        }
    }
}

impl Tables {
    /// Tables 1 to 4, or 14 to 17.
    pub fn neutral(&self) -> &[RatioTable; 4] {
        &self.neutral
    }

    /// Tables 5 to 8, or 18 to 21.
    pub fn dense(&self) -> &[RateTable; 4] {
        &self.dense
    }

    /// Tables 9 to 12, or 22 to 25.
    pub fn specific(&self) -> &[RateTable; 4] {
        &self.specific
    }

    fn read([n0, n1, n2, n3, d0, d1, d2, d3, s0, s1, s2, s3]: &[Sheet; 12]) -> Self {
        Tables {
            neutral: [n0, n1, n2, n3].map(RatioTable::read),
            dense: [d0, d1, d2, d3].map(RateTable::read_dense),
            specific: [s0, s1, s2, s3].map(RateTable::read_specific),
        }
    }
}

impl Table {
    pub(super) fn number(&self) -> u8 {
        match *self {
            Table::Neutral(number) | Table::Dense(number) | Table::Specific(number, _) => number,
        }
    }

    pub(super) fn alternative_number(&self) -> u8 {
        self.number() + 13
    }

    /// The distance for a rate in the worst case, or `None` beyond the table.
    pub(super) fn distance(&self, printed: &Printed, rate: PoundsPerMinute, substance: &Toxic) -> Option<Miles> {
        let Tables { neutral, dense, specific } = &printed.worst_case;
        match *self {
            Table::Neutral(number) => neutral[usize::from(number) - 1].distance(rate, substance.endpoint),
            Table::Dense(number) => dense[usize::from(number) - 5].distance(rate, substance.dense_column),
            Table::Specific(number, ground) => specific[usize::from(number) - 9].distance(rate, column_of(ground)),
        }
    }

    /// What the alternative table has at a rate, or `None` beyond it.
    pub(super) fn alternative(&self, printed: &Printed, rate: PoundsPerMinute, substance: &Toxic) -> Option<Reading> {
        let Tables { neutral, dense, specific } = &printed.alternative;
        match *self {
            Table::Neutral(number) => {
                neutral[usize::from(number) - 1].distance(rate, substance.endpoint).map(Reading::Entry)
            }
            Table::Dense(number) => dense[usize::from(number) - 5].around(rate, substance.dense_column),
            Table::Specific(number, ground) => specific[usize::from(number) - 9].around(rate, column_of(ground)),
        }
    }
}

/// The column of a ground in a substance's own table.
fn column_of(ground: Ground) -> usize {
    match ground {
        Ground::Rural => 0,
        Ground::Urban => 1,
    }
}

/// What holds above the last row or a closed last range: a last entry of 25 miles, and nothing else.
fn beyond(in_use: &[Miles]) -> Option<Miles> {
    in_use.last().copied().filter(|last| *last == LIMIT)
}

impl RatioTable {
    /// The bounds that two ranges share, in tenths of (pounds per minute) / (mg/L).
    pub fn bounds(&self) -> &[u64] {
        &self.bounds
    }

    /// Rate / endpoint is compared with a bound by multiplying out: in the units held, the quotient reaches the bound
    /// where rate × 1000 reaches bound × endpoint. A shared bound so belongs to the farther range.
    fn distance(&self, rate: PoundsPerMinute, endpoint: u64) -> Option<Miles> {
        let scaled = rate.thousandths() * 1_000;
        match self.end {
            Some(end) if scaled > end * endpoint => beyond(&self.in_use),
            _ => Some(self.in_use[self.bounds.partition_point(|bound| bound * endpoint <= scaled)]),
        }
    }

    fn read(sheet: &Sheet) -> Self {
        let mut bounds = Vec::new();
        let mut end = Some(0);
        for row in &sheet.rows {
            let (from, to) = match row[0].strip_prefix('>') {
                Some(from) => (decimal(from, 1), None),
                None => {
                    let (from, to) = row[0].split_once(" - ").expect("a range");
                    (decimal(from, 1), Some(decimal(to, 1)))
                }
            };
            assert_eq!(end, Some(from), "each range begins where the last one ends");
            bounds.push(from);
            end = to;
        }
        // The first bound is the zero at which the first range begins.
        bounds.remove(0);
        RatioTable {
            bounds: rising(bounds),
            in_use: running_largest(sheet.rows.iter().map(|row| distance(row[1]))),
            end,
        }
    }
}

impl RateTable {
    /// The rates of the rows, in thousandths of a pound per minute.
    pub fn rates(&self) -> &[u64] {
        &self.rates
    }

    /// The midpoints of neighbouring rows, in thousandths of a pound per minute.
    pub fn cuts(&self) -> &[u64] {
        &self.cuts
    }

    /// The entry in use of the closest row, the larger at a midpoint; above the last row only 25 miles is an answer.
    fn distance(&self, rate: PoundsPerMinute, column: usize) -> Option<Miles> {
        let in_use = &self.in_use[column];
        if rate.thousandths() > *self.rates.last()? {
            return beyond(in_use);
        }
        let row = self.cuts.partition_point(|&cut| cut <= rate.thousandths());
        Some(in_use[row])
    }

    /// The entry in use at a row's rate, of the first row below it, or the two rows around a rate; above the last row
    /// only 25 miles is an answer.
    fn around(&self, rate: PoundsPerMinute, column: usize) -> Option<Reading> {
        let in_use = &self.in_use[column];
        let row =
            |place: usize| Row { rate: PoundsPerMinute::from_thousandths(self.rates[place]), miles: in_use[place] };
        match self.rates.binary_search(&rate.thousandths()) {
            Ok(place) => Some(Reading::Entry(in_use[place])),
            Err(0) => Some(Reading::Entry(in_use[0])),
            Err(place) if place == self.rates.len() => beyond(in_use).map(Reading::Entry),
            Err(place) => Some(Reading::Between(row(place - 1), row(place))),
        }
    }

    /// Entries in use of Tables 5 to 8 and 18 to 21: the largest at no greater rate and no lower endpoint.
    fn read_dense(sheet: &Sheet) -> Self {
        let mut table = Self::read_columns(sheet);
        for left in (0..table.in_use.len() - 1).rev() {
            let (columns, right) = table.in_use.split_at_mut(left + 1);
            for (entry, higher_endpoint) in columns[left].iter_mut().zip(&right[0]) {
                *entry = (*entry).max(*higher_endpoint);
            }
        }
        table
    }

    fn read_specific(sheet: &Sheet) -> Self {
        assert_eq!(sheet.header, ["rate", "rural", "urban"]);
        Self::read_columns(sheet)
    }

    /// The table with each column read by itself: the largest at no greater rate.
    fn read_columns(sheet: &Sheet) -> Self {
        let rates = rising(sheet.rows.iter().map(|row| decimal(row[0], 3)).collect());
        RateTable {
            cuts: midpoints(&rates),
            rates,
            in_use: (1..sheet.header.len())
                .map(|column| running_largest(sheet.rows.iter().map(|row| distance(row[column]))))
                .collect(),
        }
    }
}

impl Flammable {
    /// Every heat is printed whole, so none has to be rounded up.
    fn read(sheet: &Sheet, row: &[&str]) -> Self {
        let heat_of_combustion = decimal(sheet.cell(row, "heat_of_combustion_kj_per_kg"), 0);
        assert!((1..=HIGHEST_HEAT).contains(&heat_of_combustion), "a heat of {heat_of_combustion}");
        Flammable { cas: cas_number(sheet.cell(row, "cas")), heat_of_combustion }
    }
}

impl LiquidFactors {
    /// The entry of the closest column, the higher at a midpoint; temperatures under 25 °C read that column.
    pub fn at(&self, tenths: i16) -> Factor {
        self.by_column[TEMPERATURE_CUTS.partition_point(|&cut| cut <= tenths)]
    }

    fn read(lfa: u64, lfb: u64, b4: &Sheet, b4_row: &[&str]) -> Self {
        let mut by_column = [Factor::Times(100); 6];
        for (entry, name) in by_column[1..].iter_mut().zip(TEMPERATURE_COLUMNS) {
            *entry = match b4.cell(b4_row, name) {
                "ND" => Factor::NoData,
                "LFB" => Factor::UseBoiling,
                factor => Factor::Times(decimal(factor, 2)),
            };
        }
        LiquidFactors { lfa, lfb, by_column }
    }
}

impl Toxic {
    fn read(sheet: &Sheet, row: &[&str], plume_columns: [&str; 2], phase: Phase, endpoints: &[u64]) -> Self {
        let endpoint = decimal(sheet.cell(row, "endpoint"), 5);
        let [plume, alternative_plume] = plume_columns.map(|column| match sheet.cell(row, column) {
            "Dense" => Plume::Dense,
            "Buoyant" => Plume::Neutral,
            other => panic!("{other} is no kind of plume"),
        });
        Toxic {
            cas: cas_number(sheet.cell(row, "cas")),
            density_factor: decimal(sheet.cell(row, "df"), 2),
            endpoint,
            plume,
            alternative_plume,
            phase,
            dense_column: closest_endpoint(endpoints, endpoint),
        }
    }
}

impl Solute {
    /// The row of the lowest printed concentration that is not below one: none above the highest, and none for zero.
    pub(super) fn at(&self, concentration: Concentration) -> Option<&Toxic> {
        if concentration == Concentration::NONE {
            return None;
        }
        self.rows.iter().find(|(printed, _)| *printed >= concentration).map(|(_, row)| row)
    }

    /// The printed concentrations, rising, in tenths of a percent, each with its row.
    pub fn rows(&self) -> impl Iterator<Item = (u16, &Toxic)> {
        self.rows.iter().map(|(printed, row)| (printed.tenths(), row))
    }

    fn new(cas: u32, mut rows: Vec<(Concentration, Toxic)>) -> Self {
        rows.sort_by_key(|(printed, _)| *printed);
        assert!(rows.is_sorted_by(|a, b| a.0 < b.0), "a concentration of {cas} is printed twice");
        Solute { cas, rows }
    }
}

impl<S> Listed<S> {
    fn new(mut substances: Vec<S>, cas_of: impl Fn(&S) -> u32) -> Self {
        substances.sort_by_key(&cas_of);
        let cas: Vec<u32> = substances.iter().map(cas_of).collect();
        assert!(cas.is_sorted_by(|a, b| a < b), "a CAS number is listed twice");
        let divisor = (1..).find(|&divisor| tells_apart(divisor, &cas)).expect("one above all of them does");
        let mut slots = vec![None; divisor as usize];
        for (place, &cas) in cas.iter().enumerate() {
            slots[(cas % divisor) as usize] = Some((cas, place));
        }
        Listed { substances, divisor, slots }
    }

    fn find(&self, cas: u32) -> Option<&S> {
        let (listed, place) = self.slots[(cas % self.divisor) as usize]?;
        (listed == cas).then(|| &self.substances[place])
    }
}

/// True if no two of the CAS numbers leave the same remainder.
fn tells_apart(divisor: u32, cas: &[u32]) -> bool {
    let remainders: HashSet<u32> = cas.iter().map(|cas| cas % divisor).collect();
    remainders.len() == cas.len()
}

fn read_toxics(endpoints: &[u64]) -> Listed<Toxic> {
    let b1 = Sheet::cut(include_str!("../../../data/b1.tsv"));
    let b2 = Sheet::cut(include_str!("../../../data/b2.tsv"));
    let b4 = Sheet::cut(include_str!("../../../data/b4.tsv"));
    let gases = b1.rows.iter().map(|row| {
        let phase = Phase::Gas { lfb: liquid_factor(b1.cell(row, "lfb")) };
        Toxic::read(&b1, row, ["reference_table"; 2], phase, endpoints)
    });
    let liquids = b2.rows.iter().map(|row| {
        let cas = b2.cell(row, "cas");
        let b4_row = b4.rows.iter().find(|row| b4.cell(row, "cas") == cas);
        let b4_row = b4_row.expect("Exhibit B-4 has a row for each liquid");
        let [lfa, lfb] = ["lfa", "lfb"].map(|column| liquid_factor(b2.cell(row, column)));
        let factors = LiquidFactors::read(lfa, lfb, &b4, b4_row);
        Toxic::read(&b2, row, PLUME_COLUMNS, Phase::Liquid(factors), endpoints)
    });
    Listed::new(gases.chain(liquids).collect(), |toxic| toxic.cas)
}

fn read_solutes(endpoints: &[u64]) -> Listed<Solute> {
    let b3 = Sheet::cut(include_str!("../../../data/b3.tsv"));
    let mut by_cas: BTreeMap<u32, Vec<(Concentration, Toxic)>> = BTreeMap::new();
    for row in &b3.rows {
        let phase = Phase::Solution { lfa: liquid_factor(b3.cell(row, "lfa_1_5")) };
        let toxic = Toxic::read(&b3, row, PLUME_COLUMNS, phase, endpoints);
        by_cas.entry(toxic.cas).or_default().push((concentration(b3.cell(row, "percent")), toxic));
    }
    let solutes = by_cas.into_iter().map(|(cas, rows)| Solute::new(cas, rows));
    Listed::new(solutes.collect(), |solute| solute.cas)
}

fn read_flammables() -> Listed<Flammable> {
    let c1 = Sheet::cut(include_str!("../../../data/c1.tsv"));
    let rows = c1.rows.iter().map(|row| Flammable::read(&c1, row));
    Listed::new(rows.collect(), |flammable| flammable.cas)
}

/// The endpoints over Tables 5 to 8 and 18 to 21, in hundred-thousandths: the eight tables print the same.
fn shared_endpoints<'s>(mut dense: impl Iterator<Item = &'s Sheet>) -> Vec<u64> {
    let first = dense.next().expect("a dense table");
    for other in dense {
        assert_eq!(first.header, other.header, "the dense tables share their endpoints");
    }
    rising(first.header[1..].iter().map(|cell| decimal(cell, 5)).collect())
}

/// The column of the closest endpoint, the smaller at a midpoint; the midpoint is doubled to stay whole.
fn closest_endpoint(endpoints: &[u64], endpoint: u64) -> usize {
    endpoints.windows(2).take_while(|pair| pair[0] + pair[1] < 2 * endpoint).count()
}

/// A file of `data/`: comment lines on top, then a header, then rows of as many cells.
struct Sheet {
    header: Vec<&'static str>,
    rows: Vec<Vec<&'static str>>,
}

impl Sheet {
    fn cut(text: &'static str) -> Self {
        let mut lines =
            text.lines().skip_while(|line| line.starts_with("# ")).map(|line| line.split('\t').collect::<Vec<_>>());
        let header = lines.next().expect("a header line");
        let rows: Vec<_> = lines.collect();
        for row in &rows {
            assert_eq!(row.len(), header.len(), "a cell for each column in {row:?}");
        }
        Sheet { header, rows }
    }

    fn cell<'r>(&self, row: &[&'r str], column: &str) -> &'r str {
        let place = self.header.iter().position(|name| *name == column);
        row[place.unwrap_or_else(|| panic!("a column {column}"))]
    }
}

/// A printed figure times 10^`places`, which must make it whole.
fn decimal(cell: &str, places: usize) -> u64 {
    let (whole, fraction) = cell.split_once('.').unwrap_or((cell, ""));
    assert!(fraction.len() <= places, "{cell} has more than {places} decimals");
    let digits = whole.replace(',', "") + fraction + &"0".repeat(places - fraction.len());
    digits.parse().unwrap_or_else(|_| panic!("{cell} is no figure"))
}

/// A printed liquid factor, in millionths.
fn liquid_factor(cell: &str) -> u64 {
    decimal(cell, 6)
}

/// A printed percentage of a solution's weight.
fn concentration(cell: &str) -> Concentration {
    let tenths = decimal(cell, 1);
    assert!((1..=1_000).contains(&tenths), "{cell} is no percentage of a solution");
    Concentration::from_tenths(tenths as u16)
}

/// A printed distance, with the marks for a near and a far one; the only blanks are near ones, in the urban columns of
/// Tables 10 and 22 to 25.
fn distance(cell: &str) -> Miles {
    match cell {
        "#" | "<0.1" | "<0.1*" | "" => NEAREST,
        "*" | "**" | ">25" | ">25*" => LIMIT,
        figure => {
            let hundredths = decimal(figure, 2);
            assert!(hundredths <= u64::from(LIMIT.hundredths()), "{cell} is beyond 25 miles");
            Miles::from_hundredths(hundredths as u16)
        }
    }
}

fn cas_number(cell: &str) -> u32 {
    let digits = cell.replace('-', "");
    digits.parse().unwrap_or_else(|_| panic!("{cell} is no CAS number"))
}

/// The largest entry up to each place, so that a misprint can't shorten a ring.
fn running_largest(entries: impl Iterator<Item = Miles>) -> Vec<Miles> {
    entries
        .scan(Miles::from_hundredths(0), |largest, entry| {
            *largest = entry.max(*largest);
            Some(*largest)
        })
        .collect()
}

/// Rates are whole pounds per minute, so their midpoints are whole in thousandths.
fn midpoints(rates: &[u64]) -> Vec<u64> {
    rates.windows(2).map(|pair| (pair[0] + pair[1]) / 2).collect()
}

fn rising(figures: Vec<u64>) -> Vec<u64> {
    assert!(figures.is_sorted_by(|a, b| a < b), "{figures:?} do not rise");
    figures
}

/// Rules that no printed figure puts to the test, on figures made up for it.
#[cfg(test)]
mod tests {
    use super::*;

    const DENSE: &str = "rate\t0.01\t0.02\t0.05\n1\t0.3\t0.2\t#\n2\t0.4\t0.9\t0.1\n5\t0.5\t0.3\t0.2\n";

    fn rate(thousandths: u64) -> PoundsPerMinute {
        PoundsPerMinute::from_thousandths(thousandths)
    }

    fn miles(hundredths: u16) -> Option<Miles> {
        Some(Miles::from_hundredths(hundredths))
    }

    fn ranges(text: &'static str) -> RatioTable {
        RatioTable::read(&Sheet::cut(text))
    }

    #[test]
    fn a_misprint_shortens_no_ring() {
        // The 0.9 counts for greater rates and for lower endpoints, and for nothing else.
        let table = RateTable::read_dense(&Sheet::cut(DENSE));
        let read = |column: usize| [1_000, 2_000, 5_000].map(|thousandths| table.distance(rate(thousandths), column));
        assert_eq!(read(0), [miles(30), miles(90), miles(90)]);
        assert_eq!(read(1), [miles(20), miles(90), miles(90)]);
        assert_eq!(read(2), [miles(10), miles(10), miles(20)]);
        let ranges = ranges("range\tdistance\n0 - 2\t0.5\n2 - 4\t0.1\n>4\t>25*\n");
        assert_eq!(ranges.in_use, [50, 50, 2_500].map(Miles::from_hundredths));
    }

    #[test]
    fn above_a_closed_last_range_only_25_miles_is_answered() {
        // An endpoint of 1 mg/L, so that the ratio is the rate.
        let read = |table: &RatioTable, thousandths: u64| table.distance(rate(thousandths), 100_000);
        let near = ranges("range\tdistance\n0 - 2\t0.1\n2 - 4\t0.3\n");
        assert_eq!([1_999, 2_000, 4_000, 4_001].map(|r| read(&near, r)), [miles(10), miles(30), miles(30), None]);
        let far = ranges("range\tdistance\n0 - 2\t0.1\n2 - 4\t25\n");
        assert_eq!(read(&far, 4_001), miles(2_500));
    }

    #[test]
    fn the_smaller_endpoint_is_read_at_a_midpoint() {
        let endpoints = [1_000, 2_000, 5_000];
        let column = |endpoint: u64| closest_endpoint(&endpoints, endpoint);
        assert_eq!([1, 1_500, 1_501, 3_500, 3_501, 90_000].map(column), [0, 0, 1, 1, 2, 2]);
    }
}
