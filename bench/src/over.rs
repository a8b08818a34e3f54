//! The library now over that of before. What a call takes depends on where the linker puts it, and a function stands at
//! an address that 16 divides: so each library comes four times, 16 bytes on each time, and every function has stood at
//! each place in a line of the cache.

use std::cell::RefCell;
use std::fmt::Debug;
use std::hint::black_box;

use crate::reference;
use crate::sepia::Library;
use crate::shape;
use crate::speed::{all_inputs, case, finish, measure, median, Case, E, REPETITIONS, ROUNDS};

const PLACES: usize = 4;
const SIDES: usize = 2 * PLACES;
type Libraries = [Library; SIDES];

/// The four of before, and then the four of now.
pub fn run(libraries: Libraries) {
    println!("Nanoseconds of processor time a call: medians of {ROUNDS} rounds of {REPETITIONS} timings, in turn.");
    println!("The ratio is now over before in one round, for the best of the four places and for all four together.");
    println!("\n| call | input | before | now | best place | rounds | all places | rounds |");
    println!("|---|---|---:|---:|---:|---|---:|---|");
    for input in &all_inputs() {
        for l in [input.t, 1, input.t / 2] {
            let case = case(input, l);
            libraries.iter().for_each(|library| hold(&case, library));
            if l == input.t {
                time_read(&case, &libraries);
            }
            time_evaluate(&case, &libraries);
            time_rows(&case, &libraries);
            time_page(&case, &libraries);
            time_judge(&case, &libraries);
        }
    }
}

/// Holds a library's answers, and what it writes, to the reference.
fn hold(Case { text, table, plan, run, figures, broken, .. }: &Case, library: &Library) {
    let plan = *plan;
    let rows = reference::row_bytes(table, plan).expect("rows");
    let page = reference::whole_page(table, plan).expect("a page").len();
    same(table.len(), |out| reference::read(text, plan.m, out), |out| library.read(text, plan.m, out));
    same(
        shape::len(table),
        |out| reference::evaluate(table, plan, run, out),
        |out| library.evaluate(table, plan, run, out),
    );
    same(rows, |out| reference::rows(table, plan, out), |out| library.rows(table, plan, out));
    same(page, |out| reference::mps_page(table, plan, out), |out| library.mps_page(table, plan, out));
    for figures in [figures, broken, &outside(figures, 0), &outside(figures, figures.len() - 1)] {
        assert_eq!(reference::judge(table, plan, figures, E), library.judge(table, plan, figures, E));
    }
}

type Answered = Result<usize, u32>;

fn same<T: Clone + Debug + Default + PartialEq>(
    len: usize,
    reference: impl FnOnce(&mut [T]) -> Answered,
    library: impl FnOnce(&mut [T]) -> Answered,
) {
    let (mut one, mut two) = (vec![T::default(); len], vec![T::default(); len]);
    assert_eq!(reference(&mut one), library(&mut two));
    assert_eq!(one, two);
}

/// Prints a line on calls of one kind, one of each library.
fn time(call: &str, case: &Case, mut sides: Vec<impl FnMut()>) {
    let mut each = sides.iter_mut();
    let sides = std::array::from_fn(|_| each.next().expect("a side for each library") as &mut dyn FnMut());
    let rounds: Vec<[f64; SIDES]> = measure(sides);
    let best = |round: &[f64]| round.iter().copied().fold(f64::INFINITY, f64::min);
    let all = |round: &[f64]| round.iter().sum::<f64>() / PLACES as f64;
    let of = |part: fn(&[f64; SIDES]) -> &[f64]| median(rounds.iter().map(|round| best(part(round))).collect());
    println!(
        "| {call} | {} | {:.0} | {:.0} | {} | {} |",
        case.label,
        of(|round| &round[..PLACES]),
        of(|round| &round[PLACES..]),
        ratio(&rounds, best),
        ratio(&rounds, all)
    );
}

fn ratio(rounds: &[[f64; SIDES]], of: impl Fn(&[f64]) -> f64) -> String {
    let ratios: Vec<f64> = rounds.iter().map(|round| of(&round[PLACES..]) / of(&round[..PLACES])).collect();
    let least = ratios.iter().copied().fold(f64::INFINITY, f64::min);
    let largest = ratios.iter().copied().fold(0.0, f64::max);
    format!("{:.2} | {least:.2} to {largest:.2}", median(ratios))
}

/// All sides write into one buffer: where a large one lies in memory counts too.
fn time_read(case: &Case, libraries: &Libraries) {
    let out = &RefCell::new(vec![0; case.table.len()]);
    let side =
        |library: &Library| finish(library.read(black_box(&case.text), case.plan.m, black_box(&mut out.borrow_mut())));
    time("read", case, libraries.iter().map(|library| move || side(library)).collect());
}

fn time_evaluate(case: &Case, libraries: &Libraries) {
    let Case { table, plan, run, .. } = case;
    let out = &RefCell::new(vec![0; shape::len(table)]);
    let side = |library: &Library| {
        finish(library.evaluate(black_box(table), *plan, black_box(run), black_box(&mut out.borrow_mut())))
    };
    time("evaluate", case, libraries.iter().map(|library| move || side(library)).collect());
}

fn time_rows(case: &Case, libraries: &Libraries) {
    let out = &RefCell::new(vec![0; reference::row_bytes(&case.table, case.plan).expect("rows")]);
    let side =
        |library: &Library| finish(library.rows(black_box(&case.table), case.plan, black_box(&mut out.borrow_mut())));
    time("rows", case, libraries.iter().map(|library| move || side(library)).collect());
}

fn time_page(case: &Case, libraries: &Libraries) {
    let out = &RefCell::new(vec![0; reference::whole_page(&case.table, case.plan).expect("a page").len()]);
    let side = |library: &Library| {
        finish(library.mps_page(black_box(&case.table), case.plan, black_box(&mut out.borrow_mut())))
    };
    time("mps", case, libraries.iter().map(|library| move || side(library)).collect());
}

/// Figures with one of them outside.
fn outside(figures: &[i32], place: usize) -> Vec<i32> {
    let mut figures = figures.to_vec();
    figures[place] = -E - 1;
    figures
}

fn time_judge(case: &Case, libraries: &Libraries) {
    let last = case.figures.len() - 1;
    for (call, figures) in [
        ("judge, passed", &case.figures),
        ("judge, broken at the goal row", &case.broken),
        ("judge, outside at the first variable", &outside(&case.figures, 0)),
        ("judge, outside at the last", &outside(&case.figures, last)),
    ] {
        let sides =
            |library| move || finish(Library::judge(library, black_box(&case.table), case.plan, black_box(figures), E));
        time(call, case, libraries.iter().map(sides).collect());
    }
}
