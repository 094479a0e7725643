//! The sample: sage's unchanged score_psms, spectrum_q_value and picked_protein beside host's rescore with sage's
//! densities; the program's list beside host's rescore with its own densities; and the batch that neither can fit.

mod sage;
mod table;

use crate::report::{expect, Answer, Tally};
use host::kernel::Kernels;
use host::rescoring::{rescore, Rescored};
use host::{Call, Densities, Names, Refusal, Refused, Tolerance};
use sage::{Recorded, SageRun};
use table::{Cells, SampleRow};

/// The tolerances that the sample is compared under; the program's list is made under the first. Under these no two
/// sides of proteins have equal scores: sage ranks those in the order of its map.
const TOLERANCES: [Tolerance; 2] = [Tolerance::Ppm(-10.0, 10.0), Tolerance::Da(-700.0, 700.0)];

/// A tally of each column that is compared.
struct Tallies {
    row: Tally,
    score: Tally,
    posterior_error: Tally,
    spectrum_q: Tally,
    protein_q: Tally,
    counts: Tally,
}

/// One row of a list.
#[derive(Clone, Copy)]
struct ListRow {
    row: usize,
    score: f32,
    posterior_error: f32,
    spectrum_q: f32,
    protein_q: f32,
}

/// Compares the table with sage, the list with the table, and the refused table with sage. True where nothing differs.
pub fn run(table: &str, list: &str, refused: &str) -> bool {
    let read =
        || -> Result<[Cells; 3], String> { Ok([Cells::read(table)?, Cells::read(list)?, Cells::read(refused)?]) };
    match read() {
        Ok([table, list, refused]) => {
            let tables = TOLERANCES.map(|tolerance| beside_sage(&table, tolerance));
            tables == [true; 2] && beside_list(&table, &list) && refused_by_both(&refused)
        }
        Err(fault) => {
            eprintln!("compare: {fault}");
            false
        }
    }
}

/// host's rescore of rows.
fn rescored(rows: &[SampleRow], tolerance: Tolerance, densities: &mut dyn Densities) -> Result<Rescored, Refused> {
    let psms: Vec<_> = rows.iter().map(SampleRow::psm).collect();
    let protein_names: Vec<_> = rows.iter().map(SampleRow::protein_name).collect();
    rescore(&psms, &protein_names, Names::Two, tolerance, densities)
}

/// host's rows.
fn list_rows(rescored: &Rescored) -> impl Iterator<Item = ListRow> + '_ {
    (0..rescored.order.len()).map(|place| ListRow {
        row: rescored.order[place],
        score: rescored.scores[place],
        posterior_error: rescored.posterior_errors[place],
        spectrum_q: rescored.spectra.q[place],
        protein_q: rescored.proteins.q[place],
    })
}

/// host with sage's densities beside sage.
fn beside_sage(table: &Cells, tolerance: Tolerance) -> bool {
    let rows = table.rows();
    let sage = SageRun::run(&rows, tolerance).expect("sage fits the sample");
    let mut densities = Recorded::new(&sage.builds);
    let port = rescored(&rows, tolerance, &mut densities).expect("the port fits the sample");
    let mut tallies = Tallies::new();
    for (port, sage) in list_rows(&port).zip(sage.list_rows()) {
        tallies.count(&port, &sage);
    }
    tallies.number("rows", port.order.len(), sage.features.len());
    tallies.number("spectra that pass", port.spectra.count, sage.spectra);
    tallies.number("proteins that pass", port.proteins.count, sage.proteins);
    tallies.number("samples of a density that differ", densities.differ, 0);
    tallies.number("densities", densities.taken, 6);
    tallies.number("sides of proteins with equal scores", sage.ties(&rows), 0);
    println!("the sample beside sage, {tolerance:?}, {} rows", rows.len());
    tallies.print()
}

/// The list that the program wrote beside host with its own densities.
fn beside_list(table: &Cells, list: &Cells) -> bool {
    let port = rescored(&table.rows(), TOLERANCES[0], &mut Kernels).expect("the port fits the sample");
    let mut tallies = Tallies::new();
    let written: Vec<ListRow> = list.list_rows();
    for (port, written) in list_rows(&port).zip(&written) {
        tallies.count(&port, written);
    }
    tallies.number("rows", port.order.len(), written.len());
    println!("the program's list of the sample, {} rows", written.len());
    tallies.print()
}

/// The batch that sage's score_psms gives nothing for, and the port a refusal with 7.
fn refused_by_both(table: &Cells) -> bool {
    let rows = table.rows();
    let mut tally = Tally::new("refused");
    tally.count(SageRun::run(&rows, TOLERANCES[0]).is_none(), || "sage fits it".to_string());
    let answer = rescored(&rows, TOLERANCES[0], &mut Kernels).err();
    let wanted = Some(Refused { call: Call::Train, refusal: Refusal::Unsolved });
    tally.outcome(expect("answer", answer, wanted));
    println!("the batch that is refused, {} rows", rows.len());
    tally.print()
}

impl Tallies {
    /// Nothing counted yet.
    fn new() -> Tallies {
        Tallies {
            row: Tally::new("row"),
            score: Tally::new("score"),
            posterior_error: Tally::new("posterior_error"),
            spectrum_q: Tally::new("spectrum_q"),
            protein_q: Tally::new("protein_q"),
            counts: Tally::new("counts"),
        }
    }

    /// Counts two rows at one place.
    fn count(&mut self, port: &ListRow, wanted: &ListRow) {
        let column = |tally: &mut Tally, got: f32, wanted: f32| {
            let words = || format!("row {}: port {}, and it should be {}", port.row + 1, got.hex(), wanted.hex());
            tally.count(got.same(wanted), words);
        };
        column(&mut self.score, port.score, wanted.score);
        column(&mut self.posterior_error, port.posterior_error, wanted.posterior_error);
        column(&mut self.spectrum_q, port.spectrum_q, wanted.spectrum_q);
        column(&mut self.protein_q, port.protein_q, wanted.protein_q);
        let words = || format!("port {}, and it should be {}", port.row + 1, wanted.row + 1);
        self.row.count(port.row == wanted.row, words);
    }

    /// Counts a number.
    fn number(&mut self, what: &str, port: usize, wanted: usize) {
        self.counts.count(port == wanted, || format!("{what}: {port}, and it should be {wanted}"));
    }

    /// Prints every tally; true where nothing differs.
    fn print(&self) -> bool {
        let all = [&self.row, &self.score, &self.posterior_error, &self.spectrum_q, &self.protein_q, &self.counts];
        let same = all.map(Tally::print);
        same.iter().all(|same| *same)
    }
}
