//! The proved library beside the reference in one run: small, medium and largest inputs of each call, without
//! windows and with them, with the loop slot at T and below it.

use std::hint::black_box;

use crate::clock::processor_time;
use crate::inputs;
use crate::reference::{self, Plan, Verdict};
use crate::sepia::LINKED;
use crate::shape;

pub const ROUNDS: usize = 7;
/// Timings of each side in a round, taken in turn.
pub const REPETITIONS: usize = 41;
/// What one timing takes at least, in nanoseconds.
const TIMING: u64 = 100_000;
/// The judge's tolerance.
pub const E: i32 = 1000;

pub struct Input {
    name: String,
    text: Vec<u8>,
    pub t: usize,
    m: usize,
}

fn input(name: &str, text: &[u8], t: usize, m: usize) -> Input {
    Input { name: name.into(), text: text.to_vec(), t, m }
}

pub fn all_inputs() -> [Input; 6] {
    let medium = b"G(a0&!a1>F(a2|a3))&(a4Ua5)Ua2>F(a3&a5)";
    let mixed = b"G(a0&!a1>F[0,5](a2|a3))&G[1,12](a4>F[2,9]a5)&a4Ua2>F[3,20](a3|F[0,63]G[0,4]!a1)";
    [
        input("small", b"a0Ua1", 8, 2),
        input("medium", medium, 32, 6),
        input("largest", &inputs::largest_text(128, 16), 64, 16),
        input("small with a window", b"G(a0>F[0,5]a1)", 8, 2),
        input("medium with windows", mixed, 32, 6),
        input("largest with windows", &inputs::largest_windows(), 64, 16),
    ]
}

/// Takes a call's answer, so that the call is not left out.
pub fn finish<A>(answer: A) {
    black_box(answer);
}

pub fn median(mut values: Vec<f64>) -> f64 {
    values.sort_by(f64::total_cmp);
    values[values.len() / 2]
}

fn time(calls: u32, side: &mut dyn FnMut()) -> f64 {
    let start = processor_time();
    for _ in 0..calls {
        side();
    }
    (processor_time() - start) as f64 / f64::from(calls)
}

/// The median nanoseconds of each side in each round. The sides take turns, and so does who goes first.
pub fn measure<const SIDES: usize>(mut sides: [&mut dyn FnMut(); SIDES]) -> Vec<[f64; SIDES]> {
    let calls: Vec<u32> = sides
        .iter_mut()
        .map(|side| {
            let mut calls = 1;
            loop {
                let start = processor_time();
                (0..calls).for_each(|_| side());
                if processor_time() - start >= TIMING {
                    break calls;
                }
                calls *= 2;
            }
        })
        .collect();
    (0..ROUNDS)
        .map(|_| {
            let mut times: [Vec<f64>; SIDES] = std::array::from_fn(|_| Vec::with_capacity(REPETITIONS));
            for repetition in 0..REPETITIONS {
                for turn in 0..SIDES {
                    let side = (turn + repetition) % SIDES;
                    times[side].push(time(calls[side], sides[side]));
                }
            }
            times.map(median)
        })
        .collect()
}

/// The ratio of two sides: its median over the rounds, the least and the largest.
fn ratio<const SIDES: usize>(rounds: &[[f64; SIDES]], over: usize, under: usize) -> String {
    let ratios: Vec<f64> = rounds.iter().map(|round| round[over] / round[under]).collect();
    let least = ratios.iter().copied().fold(f64::INFINITY, f64::min);
    let largest = ratios.iter().copied().fold(0.0, f64::max);
    format!("{:.2} | {least:.2} to {largest:.2}", median(ratios))
}

fn nanoseconds<const SIDES: usize>(rounds: &[[f64; SIDES]], side: usize) -> String {
    format!("{:.0}", median(rounds.iter().map(|round| round[side]).collect()))
}

fn first_two(rounds: &[[f64; 3]]) -> Vec<[f64; 2]> {
    rounds.iter().map(|&[rust, rattle, _]| [rust, rattle]).collect()
}

fn print_pair(call: &str, input: &str, rounds: &[[f64; 2]]) {
    println!(
        "| {call} | {input} | {} | {} | {} |",
        nanoseconds(rounds, 0),
        nanoseconds(rounds, 1),
        ratio(rounds, 1, 0)
    );
}

/// A rule with all that the calls take.
pub struct Case {
    name: String,
    pub label: String,
    pub text: Vec<u8>,
    pub table: Vec<u8>,
    pub plan: Plan,
    /// The number of its rows.
    rows: usize,
    pub run: Vec<u16>,
    /// Figures that pass.
    pub figures: Vec<i32>,
    /// Figures that break the goal row alone.
    pub broken: Vec<i32>,
}

pub fn case(Input { name, text, t, m }: &Input, l: usize) -> Case {
    let plan = Plan { t: *t, m: *m, l };
    let mut table = vec![0; reference::MAX_NODES * reference::NODE_BYTES];
    let nodes = reference::read(text, *m, &mut table).expect("a rule");
    table.truncate(nodes * reference::NODE_BYTES);
    let mut records = vec![0; reference::row_bytes(&table, plan).expect("rows")];
    let rows = reference::rows(&table, plan, &mut records).expect("rows");
    let run = inputs::run_with(&table, plan, 1);
    let figures = inputs::solution(&table, plan, &run);
    let broken = inputs::solution(&table, plan, &inputs::run_with(&table, plan, 0));
    let slot = if l < *t { format!(", L {l}") } else { String::new() };
    let label = format!("{name}: {nodes} nodes, {} bytes, T {t}, M {m}{slot}", text.len());
    Case { name: name.clone(), label, text: text.clone(), table, plan, rows, run, figures, broken }
}

/// Prints a line, and gives that of the reader by levels.
fn time_read(Case { label, text, table, plan, .. }: &Case) -> String {
    let m = plan.m;
    let (mut one, mut two, mut three) = (vec![0; table.len()], vec![0; table.len()], vec![0; table.len()]);
    let rounds = measure([
        &mut || finish(reference::read(black_box(text), m, black_box(&mut one))),
        &mut || finish(LINKED.read(black_box(text), m, black_box(&mut two))),
        &mut || finish(reference::read_by_levels(black_box(text), m, black_box(&mut three))),
    ]);
    assert_eq!(one, two);
    assert_eq!(one, three);
    print_pair("read", label, &first_two(&rounds));
    format!("| {label} | {} | {} |", nanoseconds(&rounds, 2), ratio(&rounds, 1, 2))
}

/// Prints a line, and gives that of the bytes.
fn time_evaluate(Case { label, table, plan, run, .. }: &Case) -> String {
    let (plan, nodes) = (*plan, shape::len(table));
    let (mut one, mut two, mut bytes) = (vec![0; nodes], vec![0; nodes], vec![0; nodes * plan.t]);
    let rounds = measure([
        &mut || finish(reference::evaluate(black_box(table), plan, black_box(run), black_box(&mut one))),
        &mut || finish(LINKED.evaluate(black_box(table), plan, black_box(run), black_box(&mut two))),
        &mut || finish(reference::evaluate_bytes(black_box(table), plan, black_box(run), black_box(&mut bytes))),
    ]);
    assert_eq!(one, two);
    print_pair("evaluate", label, &first_two(&rounds));
    format!("| {label} | {} | {} | {} |", nanoseconds(&rounds, 2), ratio(&rounds, 2, 1), ratio(&rounds, 2, 0))
}

/// Prints a line, and gives that of the copy.
fn time_rows(Case { name, label, table, plan, rows: count, .. }: &Case) -> String {
    let plan = *plan;
    let bytes = reference::row_bytes(table, plan).expect("rows");
    let (mut one, mut two, mut three) = (vec![0; bytes], vec![0; bytes], vec![0; bytes]);
    reference::rows(table, plan, &mut one).expect("rows");
    let source = one.clone();
    let rounds = measure([
        &mut || finish(reference::rows(black_box(table), plan, black_box(&mut one))),
        &mut || finish(LINKED.rows(black_box(table), plan, black_box(&mut two))),
        &mut || black_box(&mut three).copy_from_slice(black_box(&source)),
    ]);
    assert_eq!(one, two);
    print_pair("rows", &format!("{label}, {count} rows"), &first_two(&rounds));
    format!(
        "| {name}: {count} rows, {bytes} bytes | {} | {} | {} |",
        nanoseconds(&rounds, 2),
        ratio(&rounds, 1, 2),
        ratio(&rounds, 0, 2)
    )
}

fn time_page(Case { label, table, plan, .. }: &Case) {
    let plan = *plan;
    let bytes = reference::whole_page(table, plan).expect("a page").len();
    let (mut one, mut two) = (vec![0; bytes], vec![0; bytes]);
    let mut rust = || finish(reference::mps_page(black_box(table), plan, black_box(&mut one)));
    let mut rattle = || finish(LINKED.mps_page(black_box(table), plan, black_box(&mut two)));
    let rounds = measure([&mut rust, &mut rattle]);
    assert_eq!(one, two);
    print_pair("mps", &format!("{label}, {bytes} bytes of page"), &rounds);
}

/// Prints a line, and gives that of the error figures: the same rows are tested where the last is broken, but no error
/// figures are worked out.
fn time_judge(Case { label, table, plan, rows, figures, broken, .. }: &Case) -> String {
    let plan = *plan;
    let expected = reference::judge(table, plan, figures, E);
    assert!(matches!(expected, Ok(Verdict::Passed(count, _)) if count == *rows), "{expected:?}");
    assert_eq!(expected, LINKED.judge(table, plan, figures, E));
    let goal = Ok(Verdict::Broken(rows - 1, reference::ONE));
    assert_eq!(goal, reference::judge(table, plan, broken, E));
    assert_eq!(goal, LINKED.judge(table, plan, broken, E));
    let rounds = measure([
        &mut || finish(reference::judge(black_box(table), plan, black_box(figures), E)),
        &mut || finish(LINKED.judge(black_box(table), plan, black_box(figures), E)),
        &mut || finish(reference::judge(black_box(table), plan, black_box(broken), E)),
        &mut || finish(LINKED.judge(black_box(table), plan, black_box(broken), E)),
    ]);
    let both: Vec<[f64; 2]> = rounds.iter().map(|&[rust, rattle, ..]| [rust, rattle]).collect();
    print_pair("judge", label, &both);
    let line = |with: usize, without: usize| {
        let (passed, broken) = (nanoseconds(&rounds, with), nanoseconds(&rounds, without));
        format!("{passed} | {broken} | {}", ratio(&rounds, with, without))
    };
    format!("| {label}, {rows} rows | {} | {} |", line(1, 3), line(0, 2))
}

/// The time of a row where L is below T over that of a row where L is T, in Rattle's rows, page and judge.
fn time_per_row(looped: &Case, stay: &Case) -> [String; 3] {
    let room = |case: &Case| vec![0; reference::whole_page(&case.table, case.plan).expect("a page").len()];
    let (mut one, mut two) = (room(looped), room(stay));
    let rows = |case: &Case, out: &mut [u8]| finish(LINKED.rows(black_box(&case.table), case.plan, black_box(out)));
    let page = |case: &Case, out: &mut [u8]| finish(LINKED.mps_page(black_box(&case.table), case.plan, black_box(out)));
    let judge = |case: &Case| finish(LINKED.judge(black_box(&case.table), case.plan, black_box(&case.figures), E));
    [
        per_row("rows", looped, stay, &measure([&mut || rows(looped, &mut one), &mut || rows(stay, &mut two)])),
        per_row("mps", looped, stay, &measure([&mut || page(looped, &mut one), &mut || page(stay, &mut two)])),
        per_row("judge", looped, stay, &measure([&mut || judge(looped), &mut || judge(stay)])),
    ]
}

fn per_row(call: &str, looped: &Case, stay: &Case, rounds: &[[f64; 2]]) -> String {
    let by_row = |&[below, at]: &[f64; 2]| [below / looped.rows as f64, at / stay.rows as f64];
    let rounds: Vec<[f64; 2]> = rounds.iter().map(by_row).collect();
    let side = |side: usize| median(rounds.iter().map(|round| round[side]).collect());
    let counts = format!("{} and {} rows", looped.rows, stay.rows);
    format!("| {call} | {}, {counts} | {:.2} | {:.2} | {} |", looped.label, side(0), side(1), ratio(&rounds, 0, 1))
}

fn print_table(title: &str, heads: &str, lines: &[String]) {
    if lines.is_empty() {
        return;
    }
    println!("\n{title}\n\n{heads}");
    lines.iter().for_each(|line| println!("{line}"));
}

/// All calls with each of the cases; the reader, which has no loop slot, with those where L is T.
fn time_calls(cases: &[Case]) {
    println!("\n| call | input | Rust | Rattle | ratio | rounds |\n|---|---|---:|---:|---:|---|");
    let (mut levels, mut bytes, mut copies, mut errors) = (Vec::new(), Vec::new(), Vec::new(), Vec::new());
    for case in cases {
        if case.plan.l == case.plan.t {
            levels.push(time_read(case));
        }
        bytes.push(time_evaluate(case));
        copies.push(time_rows(case));
        time_page(case);
        errors.push(time_judge(case));
    }
    print_table(
        "The reader beside one in Rust that has a function for each level of the grammar too:",
        "| input | Rust by levels | Rattle over it | rounds |\n|---|---:|---:|---|",
        &levels,
    );
    print_table(
        "The evaluator, which writes words, beside one in Rust that writes a byte for each node and slot:",
        "| input | Rust by bytes | over Rattle | rounds | over Rust by words | rounds |\n|---|---:|---:|---|---:|---|",
        &bytes,
    );
    print_table(
        "The row writer beside a copy of its output (memcpy):",
        "| input | copy | Rattle over copy | rounds | Rust over copy | rounds |\n|---|---:|---:|---|---:|---|",
        &copies,
    );
    print_table(
        "The judge with error figures (passed) beside the judge without (the goal row alone broken, the same rows tested):",
        "| input | Rattle with | without | ratio | rounds | Rust with | without | ratio | rounds |\n\
         |---|---:|---:|---:|---|---:|---:|---:|---|",
        &errors,
    );
}

pub fn run() {
    println!(
        "Nanoseconds of processor time a call: medians of {ROUNDS} rounds of {REPETITIONS} timings, the sides in turn."
    );
    println!("The ratio is Rattle over Rust in one round: its median, least and largest over the rounds.");
    let inputs = all_inputs();
    let stay: Vec<Case> = inputs.iter().map(|input| case(input, input.t)).collect();
    println!("\nL equal to T:");
    time_calls(&stay);
    time_loops("1", &inputs, &stay, |_| 1);
    time_loops("T / 2", &inputs, &stay, |t| t / 2);
}

/// The same with another loop slot, and beside those where it is T.
fn time_loops(name: &str, inputs: &[Input], stay: &[Case], slot: impl Fn(usize) -> usize) {
    let looped: Vec<Case> = inputs.iter().map(|input| case(input, slot(input.t))).collect();
    println!("\nL {name}:");
    time_calls(&looped);
    let lines: Vec<String> = looped.iter().zip(stay).flat_map(|(looped, stay)| time_per_row(looped, stay)).collect();
    print_table(
        "Nanoseconds of Rattle a row, beside a row where L is T:",
        "| call | input | a row | where L is T | ratio | rounds |\n|---|---|---:|---:|---:|---|",
        &lines,
    );
}
