//! What include/vayemuku.h says of every call, beyond its answer.

use std::collections::BTreeSet;
use std::process::Command;
use std::ptr::{null, null_mut};
use std::thread;
use vayemuku_sys::*;

/// What a command of binutils prints of the library.
fn printed(command: &str, options: &[&str]) -> String {
    let library = concat!(env!("CARGO_MANIFEST_DIR"), "/../../target/staticlib/libvayemuku.a");
    let printed = Command::new(command).args(options).arg(library).output().expect("binutils are there");
    assert!(printed.status.success());
    String::from_utf8(printed.stdout).unwrap()
}

/// "allocates nothing, and makes no system call": the library needs no functions but C's three that write and copy
/// memory.
#[test]
fn the_library_needs_nothing_but_copies() {
    let listed = printed("nm", &["--undefined-only"]);
    let needed: BTreeSet<&str> = listed.lines().filter_map(|line| line.trim().strip_prefix("U ")).collect();
    let copies = BTreeSet::from(["memcpy", "memmove", "memset"]);
    assert!(needed.is_subset(&copies), "{needed:?}");
}

/// "keeps no state": the library has nothing that a call could write to, neither a byte in a section nor a common
/// symbol. What only the loader writes is constant.
#[test]
fn the_library_has_nothing_to_write_to() {
    let (listed, symbols) = (printed("objdump", &["--section-headers"]), printed("nm", &[]));
    let lines: Vec<&str> = listed.lines().collect();
    let sections = lines.windows(2).filter(|pair| pair[1].contains("ALLOC") && !pair[1].contains("READONLY"));
    let heads = sections.map(|pair| pair[0]).filter(|head| !head.contains(" .data.rel.ro"));
    let written: Vec<&str> = heads.filter(|head| !head.contains(" 00000000 ")).collect();
    assert!(lines.iter().any(|line| line.contains("READONLY")), "{listed}");
    assert!(written.is_empty(), "{written:?}");
    assert!(!symbols.lines().any(|line| line.contains(" C ")), "{symbols}");
}

/// "No stage copies it": the elimination fills one table, of twenty rows of twenty-one numbers, and copies none, nor
/// does its stack have room for a second. The compiler sees to it, and no proof; with copies a small system takes more
/// than twice as long (docs/DECISIONS.md, D42).
#[test]
fn the_elimination_has_one_table() {
    let code = printed("objdump", &["--disassemble", "--reloc"]);
    let functions: Vec<&str> = code.split("\n\n").filter(|function| function.contains("<gauss::")).collect();
    let lines: Vec<&str> = functions.iter().copied().flat_map(str::lines).collect();
    let bytes = 20 * 21 * size_of::<f64>();
    let table = format!("$0x{bytes:x},");
    let whole: Vec<usize> = (0..lines.len()).filter(|&line| lines[line].contains(&table)).collect();
    let calls = whole.iter().map(|&line| lines[line..].iter().find(|line| line.contains("R_X86_64_PLT32")).unwrap());
    let calls: Vec<&str> = calls.map(|call| call.split_whitespace().last().unwrap()).collect();
    assert_eq!(calls, ["memset-0x4"]);
    let solve = functions.iter().find(|function| function.contains(" <gauss::solve_at>:")).unwrap();
    let room = |line: &str| usize::from_str_radix(line.split("sub    $0x").nth(1)?.strip_suffix(",%rsp")?, 16).ok();
    let rooms: Vec<usize> = solve.lines().filter_map(room).collect();
    assert!((bytes..2 * bytes).contains(&rooms.iter().sum()), "{rooms:?}");
}

/// The numbers of a line's check, as pointers.
fn pointers(numbers: &mut LineNumbers) -> (*mut u32, *mut usize, *mut usize, *mut usize) {
    (&mut numbers.right, &mut numbers.row, &mut numbers.decoys_plus_one, &mut numbers.targets)
}

/// "A pointer to a column may be null where its length is 0": modules 3 and 4. A fit of no rows has no decoy, and an
/// estimator has a bin.
#[test]
fn columns_of_length_0_may_be_null() {
    let (mut number, mut step, mut coefficients) = (7.0f64, 7.0f64, [1.0; 20]);
    let (one, mut bins) = ([0.5f64], [0.0f64]);
    let density = one.as_ptr();
    // SAFETY: each pointer but those to columns of length 0 is one to as many numbers as the header says.
    let numbers = unsafe {
        [
            vayemuku_train(null(), 0, null(), 0, coefficients.as_mut_ptr()),
            vayemuku_score_rows([1.0; 20].as_ptr(), null(), 0, null_mut(), 0, null_mut(), 0),
            vayemuku_bin_scores(1, null(), 0, bins.as_mut_ptr(), 1, &mut number, &mut step),
            vayemuku_posterior_bins(1, 1, null(), 0, density, 1, density, 1, bins.as_mut_ptr(), 1),
            vayemuku_slot_posterior_bins(1, 1, null(), 0, density, 1, density, 1, bins.as_mut_ptr(), 1),
            vayemuku_posterior_error(0.0, 1.0, null(), 0, 0.5, &mut number),
            vayemuku_posterior_errors(0.0, 1.0, density, 1, null(), 0, null_mut(), 0),
            vayemuku_log_errors(null(), 0, null_mut(), 0),
        ]
    };
    assert_eq!(numbers, [6, 0, 0, 0, 0, 3, 0, 0]);
}

/// The same of module 5.
#[test]
fn columns_of_tables_may_be_null() {
    let (bin, mut count) = ([0.5f64], 7usize);
    let (f, u, i, d) = (null::<f32>(), null::<u32>(), null::<i32>(), bin.as_ptr());
    let (fm, um, km) = (null_mut::<f32>(), null_mut::<u32>(), null_mut::<u64>());
    // SAFETY: as above.
    let numbers = unsafe {
        [
            vayemuku_fresh_table(fm, 0, fm, 0, um, 0, um, 0),
            vayemuku_add_rows(u, 0, i, 0, f, 0, fm, 0, fm, 0, um, 0, um, 0),
            vayemuku_winners(f, 0, f, 0, u, 0, u, 0, fm, 0, um, 0),
            vayemuku_assign_q_value(
                1, 0.0, 1.0, d, 1, f, 0, f, 0, u, 0, u, 0, u, 0, i, 0, km, 0, km, 0, fm, 0, &mut count,
            ),
        ]
    };
    assert_eq!((numbers, count), ([0; 4], 0));
}

/// The same of modules 6 and 7.
#[test]
fn columns_of_lists_may_be_null() {
    let mut lines = [LineNumbers { right: 7, row: 7, decoys_plus_one: 7, targets: 7 }; 4];
    let mut counts = [7usize; 2];
    let (i, d, fm) = (null::<i32>(), null::<f64>(), null_mut::<f32>());
    let (im, um, km) = (null_mut::<i32>(), null_mut::<u32>(), null_mut::<u64>());
    let [a, b, c, e] = lines.each_mut().map(pointers);
    // SAFETY: as above.
    let numbers = unsafe {
        [
            vayemuku_spectrum_q_value(i, 0, fm, 0, &mut counts[0]),
            vayemuku_picked_precursor(i, 0, d, 0, km, 0, km, 0, fm, 0, &mut counts[1]),
            vayemuku_precursor_order(d, 0, km, 0, km, 0, um, 0),
            vayemuku_rank_keys(km, 0, km, 0),
            vayemuku_check_line_100(i, 0, 0, a.0, a.1, a.2, a.3),
            vayemuku_check_line_20(i, 0, 0, b.0, b.1, b.2, b.3),
            vayemuku_checked_spectra(i, 0, fm, 0, c.0, c.1, c.2, c.3),
            vayemuku_checked_precursors(i, 0, d, 0, km, 0, km, 0, im, 0, um, 0, fm, 0, e.0, e.1, e.2, e.3),
        ]
    };
    assert_eq!((numbers, counts), ([0; 8], [0; 2]));
    assert_eq!(lines, [LineNumbers { right: 1, row: 0, decoys_plus_one: 1, targets: 0 }; 4]);
}

/// A list of rows that a fit is found for.
fn rows(count: usize) -> (Vec<f64>, Vec<i32>) {
    let features = (0..count * 20).map(|place| (place * 577 % 1009) as f64 / 1009.0).collect();
    (features, (0..count).map(|row| if row % 3 == 0 { -1 } else { 1 }).collect())
}

/// The calls of a run, one after the other, and what they give.
fn run(rows: &(Vec<f64>, Vec<i32>)) -> (Vec<u32>, Vec<f64>, Vec<f32>, [usize; 2]) {
    let (features, labels) = rows;
    let count = labels.len();
    let (mut coefficients, mut scores, mut narrowed) = ([0.0; 20], vec![0.0; count], vec![0.0; count]);
    let (mut keys, mut spare, mut ranked) = (vec![0; count], vec![0; count], vec![0; count]);
    let (mut order, mut q, mut numbers) = (vec![0; count], vec![0.0; count], LineNumbers::default());
    let mut values = [0.0; 20];
    let fit = train(features, labels, &mut coefficients);
    let scored = score_rows(&coefficients, features, &mut scores, &mut narrowed);
    let ranking = RankingColumns { keys: &mut keys, spare: &mut spare, q: &mut q };
    let columns = CheckedColumns { ranking, ranked: &mut ranked, order: &mut order };
    let checked = checked_precursors(labels, &scores, columns, &mut numbers);
    let left = std::array::from_fn(|row| std::array::from_fn(|place| if row == place { 2.0 } else { 0.125 }));
    let solved = solve(&left, &[1.0; 20], 20, &mut values);
    let returned = [fit, scored, checked, solved].map(|returned| returned.number).to_vec();
    (returned, [&coefficients[..], &scores, &values].concat(), q, [numbers.row, numbers.targets])
}

/// "Calls may run in several threads at once": each thread gets what one alone gets.
#[test]
fn calls_run_in_several_threads_at_once() {
    let lists: Vec<_> = [30, 300, 3_000, 10_000].map(rows).into();
    let alone: Vec<_> = lists.iter().map(run).collect();
    assert!(alone.iter().all(|answer| answer.0 == [0; 4]));
    thread::scope(|scope| {
        let threads: Vec<_> = (0..8).map(|_| scope.spawn(|| lists.iter().map(run).collect::<Vec<_>>())).collect();
        for thread in threads {
            assert_eq!(thread.join().unwrap(), alone);
        }
    });
}

/// The header's bound on the stack: the calls that need most, `train` and `solve`, and the ranking of a long list, run
/// in a thread that has little more, of which the thread itself takes a part.
#[test]
fn calls_need_little_stack() {
    let list = rows(400_000);
    let alone = run(&list);
    let thread = thread::Builder::new().stack_size(40 << 10).spawn(move || run(&list) == alone);
    assert!(thread.unwrap().join().unwrap());
}
