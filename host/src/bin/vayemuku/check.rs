//! The check of a list that is already out.

use crate::arguments::Check;
use crate::cells::{number, Label};
use crate::problem::{say, Problem};
use crate::results_table::{place, ResultsTable};
use vayemuku::{check_line, precursor_order, spectrum_q_value, Line, QValues};

/// The columns of a list that are read.
struct Columns {
    labels: Vec<i32>,
    scores: Vec<f64>,
    q: Vec<f32>,
}

/// Checks a line and the q-values of a list; Ok says whether both are right.
pub fn run(job: &Check) -> Result<bool, Problem> {
    let table = ResultsTable::read(&job.list)?;
    let columns = read(&table)?;
    let order = precursor_order(&columns.scores).map_err(|refused| Problem::refused(table.name(), refused))?;
    let labels: Vec<i32> = order.iter().map(|&row| columns.labels[row]).collect();
    let line = answer(job, &table, &labels)?;
    let q = spectrum_q_value(&labels).map_err(|refused| Problem::refused(table.name(), refused))?;
    say(format!("list      {}: {} rows, {}", table.name(), table.rows(), in_order(&order)))?;
    say(format!("line      {} at {} is {line}", job.line, job.rate))?;
    let wrong = wrong_q_values(&order, &columns, &q);
    say(format!("q-values  {}", wrong.as_deref().unwrap_or("each is what the counting rule gives")))?;
    Ok(matches!(line, Line::Right(_)) && wrong.is_none())
}

/// The line check's answer, of labels as ranked.
fn answer(job: &Check, table: &ResultsTable, labels: &[i32]) -> Result<Line, Problem> {
    check_line(labels, job.line, job.rate).map_err(|refused| {
        Problem::refused(table.name(), format!("row {}: {refused}, which has {} rows", job.line, table.rows()))
    })
}

/// Reads the columns.
fn read(table: &ResultsTable) -> Result<Columns, Problem> {
    let names = ["label", "sage_discriminant_score", "spectrum_q"];
    let mut places = [0; 3];
    for (place, name) in places.iter_mut().zip(names) {
        *place = table.column(name)?;
    }
    let mut columns = Columns { labels: Vec::new(), scores: Vec::new(), q: Vec::new() };
    let mut cells = Vec::new();
    for row in 1..=table.rows() {
        table.cells(row, &mut cells)?;
        let [label, score, q] = places.map(|place| cells[place]);
        let problem = |why: String| table.problem(row, why);
        columns.labels.push(number::<Label>(names[0], label).map_err(problem)?.0);
        columns.scores.push(number::<f32>(names[1], score).map_err(problem)?.into());
        columns.q.push(number(names[2], q).map_err(problem)?);
    }
    Ok(columns)
}

/// Whether the rows are in the order of their ranks, in words.
fn in_order(order: &[usize]) -> String {
    match order.iter().enumerate().find(|(rank, row)| rank != *row) {
        None => "in ranked order".to_string(),
        Some((0, &row)) => format!("of which {} is ranked first", place(row + 1)),
        Some((rank, &row)) => format!("of which {} is ranked as {}", place(row + 1), rank + 1),
    }
}

/// What is wrong with the list's q-values, if they are not those of the counting rule.
fn wrong_q_values(order: &[usize], columns: &Columns, counted: &QValues) -> Option<String> {
    let differs = |(rank, row): &(usize, usize)| columns.q[*row].to_bits() != counted.q[*rank].to_bits();
    let mut wrong = order.iter().copied().enumerate().filter(differs);
    let (rank, row) = wrong.next()?;
    Some(format!(
        "wrong in {} of {} rows; the first by rank, {}, has {:?} in place of {:?}",
        1 + wrong.count(),
        order.len(),
        place(row + 1),
        columns.q[row],
        counted.q[rank]
    ))
}
