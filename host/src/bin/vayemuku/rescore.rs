//! The rescoring job.

use crate::arguments::Rescore;
use crate::date::today;
use crate::draft::Draft;
use crate::list::{Failure, List};
use crate::problem::{say, warn, Problem};
use crate::progress::Progress;
use crate::proteins::Decoys;
use crate::psms::{self, Psms};
use crate::results_table::{place, ResultsTable};
use vayemuku::features::FEATURE_NAMES;
use vayemuku::kernel::Kernel;
use vayemuku::rescoring::{rescore, MeanScores, Rescored};
use vayemuku::{Densities, Line, Psm, Rate, Refused, Tolerance};

/// Rescores a table and writes the list; Ok says whether its line is right.
pub fn run(job: &Rescore) -> Result<bool, Problem> {
    // an output that cannot be written is an error before the work; the draft is removed again, so that a run that is
    // killed during its work leaves none
    drop(Draft::new(&job.output)?);
    let mut progress = Progress::new(job.progress);
    let table = ResultsTable::read(&job.input)?;
    let psms = psms::read(&table, &job.decoys, &mut progress)?;
    let answer = {
        let mut densities = WithProgress { progress: &mut progress };
        rescore(&psms.rows, &psms.protein_names, job.decoys.names(), job.tolerance, &mut densities)
    };
    let written = write(job, &table, answer.as_ref().ok(), &mut progress);
    progress.finish();
    match answer {
        Ok(rescored) => written.and_then(|_| {
            warn_of_means(&table, &rescored);
            report(job, &psms, &rescored)
        }),
        Err(refused) => Err(refusal(job, &table, &psms, refused, written)),
    }
}

/// Writes the list, whose fresh columns are empty where nothing was rescored.
fn write(
    job: &Rescore,
    table: &ResultsTable,
    rescored: Option<&Rescored>,
    progress: &mut Progress,
) -> Result<(), Problem> {
    let mut draft = Draft::new(&job.output)?;
    let list = List { table, rescored, date: &today()?, batch: &job.batch };
    match list.write(draft.file(), progress) {
        Ok(()) => draft.finish(),
        Err(Failure::Write(why)) => Err(draft.problem(why)),
        Err(Failure::Problem(problem)) => Err(problem),
    }
}

/// Warns of a list that may rank decoys first.
fn warn_of_means(table: &ResultsTable, rescored: &Rescored) {
    if rescored.decoys_first() {
        let MeanScores { targets, decoys } = rescored.means;
        let means = format!("the mean score of decoys, {decoys:?}, is not below that of targets, {targets:?}");
        warn(format!("{}: warning: {means}: the list may rank decoys first", table.name()));
    }
}

/// Prints the results; Ok says whether the line is right.
fn report(job: &Rescore, psms: &Psms, rescored: &Rescored) -> Result<bool, Problem> {
    let all = psms.rows.len();
    let decoys = psms.rows.iter().filter(|row| row.label == -1).count();
    let (spectra, proteins) = (rescored.spectra.count, rescored.proteins.count);
    let slots = match job.decoys {
        Decoys::Generated { .. } => "pairs",
        Decoys::Fasta => "names",
    };
    say(format!("batch     {}", job.batch))?;
    say(format!("rows      {all}: {} targets, {decoys} decoys", all - decoys))?;
    say(format!("spectra   {spectra} rows, decoys too, have a q-value of at most 0.01"))?;
    say(format!("line      {spectra} at {} is {}", Rate::OneIn100, rescored.line))?;
    let of_all = format!("{proteins} targets of {} {slots}", rescored.protein_slots);
    say(format!("proteins  {of_all} have a q-value of at most 0.01"))?;
    say(format!("written   {}", job.output.display()))?;
    Ok(matches!(rescored.line, Line::Right(_)))
}

/// The problem of a refusal: the call, the row that may be the cause, and where the list is, or why there is none.
fn refusal(
    job: &Rescore,
    table: &ResultsTable,
    psms: &Psms,
    refused: Refused,
    written: Result<(), Problem>,
) -> Problem {
    let mut lines = vec![format!("{}: {refused}", table.name())];
    lines.extend(not_finite(&psms.rows, job.tolerance).map(|why| format!("{}: {why}", table.name())));
    match written {
        Ok(()) => {
            lines.push(format!("{}: written with every fresh column empty", job.output.display()));
            Problem::Refused(lines)
        }
        Err(problem) => problem.after(lines),
    }
}

/// The first row whose mass error or another feature is not finite, as score_psms looks for one after a fit that
/// failed. The posterior error of the mass error is left out: where one mass error is not finite, no row has it.
fn not_finite(rows: &[Psm], tolerance: Tolerance) -> Option<String> {
    rows.iter().enumerate().find_map(|(row, psm)| {
        let error = psm.mass_error(tolerance);
        if !error.is_finite() {
            return Some(format!("{}: the mass error is {error}", place(row + 1)));
        }
        let features = psm.features(0.0);
        let feature = features.iter().position(|feature| !feature.is_finite())?;
        Some(format!("{}: {} is {}", place(row + 1), FEATURE_NAMES[feature], features[feature]))
    })
}

/// Densities by sage's kernel, with progress.
struct WithProgress<'a> {
    progress: &'a mut Progress,
}

impl Densities for WithProgress<'_> {
    fn take(&mut self, what: &str, sample: &[f64], width: f64, points: &[f64]) -> Vec<f64> {
        let kernel = Kernel::new(sample, width);
        let density = |(bin, point): (usize, &f64)| {
            self.progress.show(what, bin + 1, points.len());
            kernel.density(*point)
        };
        points.iter().enumerate().map(density).collect()
    }
}
