//! Random inputs of the calls, good and damaged.

use crate::random::Random;
use crate::reference::{self, Plan, ALWAYS, AND, ATOM, EVENTUALLY, HEIGHT, IMPLIES, MAX_AHEAD, MAX_NODES, MAX_TEXT};
use crate::reference::{NODE_BYTES, NOT, OR, THROUGHOUT, UNTIL, WITHIN};
use crate::shape;

const ALPHABET: &[u8] = b"aUFG!&|>()[],0123456789 ";
const UNARY: [(u8, u8); 3] = [(b'!', NOT), (b'F', EVENTUALLY), (b'G', ALWAYS)];
const BINARY: [(u8, u8); 4] = [(b'>', IMPLIES), (b'|', OR), (b'&', AND), (b'U', UNTIL)];
/// Sizes that a careless conversion would take for small ones.
const HUGE: [usize; 8] = [256, 257, 65_536, 65_537, 1 << 32, (1 << 32) + 1, 1 << 63, usize::MAX];

// --------------------------------------------------------------------------------------------- numbers

pub fn plan(random: &mut Random) -> Plan {
    let t = horizon(random);
    Plan { t, m: atom_count(random), l: loop_slot(random, t) }
}

fn horizon(random: &mut Random) -> usize {
    match random.below(100) {
        0..=54 => random.between(1, 8),
        55..=84 => random.between(9, 32),
        85..=90 => random.between(33, 63),
        91..=95 => 64,
        96 => 0,
        97 => 65,
        98 => random.between(66, 300),
        _ => random.pick(&HUGE),
    }
}

pub fn atom_count(random: &mut Random) -> usize {
    match random.below(100) {
        0..=89 => random.between(1, 16),
        90..=95 => 16,
        96 => 0,
        97 => 17,
        98 => random.between(18, 300),
        _ => random.pick(&HUGE),
    }
}

/// Mostly a slot of the plan, and mostly not its last.
fn loop_slot(random: &mut Random, t: usize) -> usize {
    let slots = t.clamp(1, reference::MAX_SLOTS);
    match random.below(100) {
        0..=24 => slots,
        25..=79 => random.between(1, slots),
        80..=87 => 1,
        88..=92 => (slots - 1).max(1),
        93..=95 => random.between(slots.div_ceil(2), slots),
        96 => 0,
        97 => slots + 1,
        98 => random.between(slots + 1, 300),
        _ => random.pick(&HUGE),
    }
}

/// The plan that runs and figures are made for: the one asked, with what is out of range brought within it.
fn made_for_plan(Plan { t, m, l }: Plan) -> Plan {
    let t = t.clamp(1, reference::MAX_SLOTS);
    Plan { t, m: made_for(m), l: l.clamp(1, t) }
}

/// The atom count that texts and tables are made for: the one asked, or 16 where that is out of range.
fn made_for(m: usize) -> usize {
    if (1..=16).contains(&m) {
        m
    } else {
        16
    }
}

pub fn tolerance(random: &mut Random) -> i32 {
    match random.below(20) {
        0..=5 => 0,
        6..=9 => 1,
        10..=15 => random.between(2, 999) as i32,
        16..=17 => 1000,
        18 => random.pick(&[1001, -1]),
        _ => random.pick(&[i32::MIN, i32::MAX, 1002, -1000, 65_536, 1 << 24]),
    }
}

/// The length of an output buffer where `needed` bytes or words are needed.
pub fn room(random: &mut Random, needed: usize) -> usize {
    match random.below(20) {
        0..=8 => needed,
        9..=10 => needed.saturating_sub(1),
        11..=17 => needed + random.between(1, 40),
        18 => random.below(needed + 1),
        _ => random.pick(&[0, 1, 7, 8, 9, 15, 16, 18, 19]),
    }
}

// ----------------------------------------------------------------------------------------------- texts

/// How a text is written: the chance of a space, of superfluous brackets, of a window behind F and G, and of
/// one that is refused, in percent, and the end of the atom numbers.
struct Style {
    spaces: usize,
    brackets: usize,
    windows: usize,
    refused: usize,
    atoms: usize,
}

impl Style {
    fn random(random: &mut Random, m: usize) -> Self {
        Style {
            spaces: random.pick(&[0, 0, 10, 40]),
            brackets: random.pick(&[0, 0, 5, 25]),
            windows: random.pick(&[0, 60, 90, 90]),
            refused: random.pick(&[0, 0, 0, 0, 0, 0, 2, 40]),
            atoms: if random.percent(4) { 20 } else { m },
        }
    }
}

fn spaces(random: &mut Random, style: &Style, text: &mut Vec<u8>) {
    while style.spaces > 0 && random.percent(style.spaces) {
        text.push(b' ');
    }
}

/// A phrase of exactly `nodes` nodes whose operators bind at least as tightly as number `level` of BINARY
/// (level 4: a Single).
fn phrase(random: &mut Random, style: &Style, level: usize, nodes: usize, text: &mut Vec<u8>) {
    spaces(random, style, text);
    if random.percent(style.brackets) {
        bracketed(random, style, nodes, text);
    } else if nodes == 1 {
        text.push(b'a');
        let number = random.below(style.atoms);
        text.extend_from_slice(number.to_string().as_bytes());
    } else if nodes == 2 || random.percent(30) {
        prefix(random, style, text);
        phrase(random, style, BINARY.len(), nodes - 1, text);
    } else {
        let operator = random.below(BINARY.len());
        if operator < level {
            bracketed_binary(random, style, operator, nodes, text);
        } else {
            binary(random, style, operator, nodes, text);
        }
    }
    spaces(random, style, text);
}

/// The numbers of a window that is allowed, narrow or wide.
fn window(random: &mut Random) -> (usize, usize) {
    match random.below(8) {
        0..=3 => {
            let a = random.below(6);
            (a, a + random.below(6))
        }
        4..=5 => {
            let a = random.between(0, MAX_AHEAD);
            (a, random.between(a, MAX_AHEAD))
        }
        6 => random.pick(&[(0, 0), (1, 1), (0, 1), (63, 63), (62, 63)]),
        _ => (0, MAX_AHEAD),
    }
}

/// The numbers of one that is not.
fn refused_window(random: &mut Random) -> (usize, usize) {
    match random.below(3) {
        0 => {
            let a = random.between(1, MAX_AHEAD);
            (a, random.below(a))
        }
        1 => random.pick(&[(0, 64), (63, 64), (64, 64), (64, 63), (64, 0), (0, 255), (256, 256), (0, 256), (256, 0)]),
        _ => (random.below(100), random.between(MAX_AHEAD + 1, 700)),
    }
}

/// A ! or F or G, with or without a window.
fn prefix(random: &mut Random, style: &Style, text: &mut Vec<u8>) {
    let (letter, kind) = random.pick(&UNARY);
    text.push(letter);
    if kind != NOT && random.percent(style.windows) {
        let (a, b) = if random.percent(style.refused) { refused_window(random) } else { window(random) };
        for token in ["[", &a.to_string(), ",", &b.to_string(), "]"] {
            spaces(random, style, text);
            text.extend_from_slice(token.as_bytes());
        }
    }
}

fn bracketed(random: &mut Random, style: &Style, nodes: usize, text: &mut Vec<u8>) {
    text.push(b'(');
    phrase(random, style, 0, nodes, text);
    text.push(b')');
}

fn bracketed_binary(random: &mut Random, style: &Style, operator: usize, nodes: usize, text: &mut Vec<u8>) {
    text.push(b'(');
    binary(random, style, operator, nodes, text);
    text.push(b')');
}

/// What stands left of an operator binds more tightly than it, what stands right as tightly.
fn binary(random: &mut Random, style: &Style, operator: usize, nodes: usize, text: &mut Vec<u8>) {
    let left = match random.below(3) {
        0 => 1,
        1 => nodes - 2,
        _ => random.between(1, nodes - 2),
    };
    phrase(random, style, operator + 1, left, text);
    text.push(BINARY[operator].0);
    phrase(random, style, operator, nodes - 1 - left, text);
}

fn node_count(random: &mut Random) -> usize {
    match random.below(100) {
        0..=69 => random.between(1, 14),
        70..=89 => random.between(15, 50),
        90..=94 => random.between(51, 126),
        95..=98 => random.between(127, 129),
        _ => random.between(130, 400),
    }
}

fn valid_text(random: &mut Random, m: usize, nodes: usize, text: &mut Vec<u8>) {
    text.clear();
    let style = Style::random(random, m);
    phrase(random, &style, 0, nodes, text);
}

/// Adds spaces between tokens, up to `together` at a place, until the text has `length` bytes.
fn pad(random: &mut Random, length: usize, together: usize, text: &mut Vec<u8>) {
    while text.len() < length {
        let place = random.between(0, text.len());
        let within_number = place > 0
            && place < text.len()
            && text[place].is_ascii_digit()
            && (text[place - 1] == b'a' || text[place - 1].is_ascii_digit());
        if !within_number {
            let count = random.between(1, together.min(length - text.len()));
            text.splice(place..place, std::iter::repeat_n(b' ', count));
        }
    }
}

fn damage(random: &mut Random, bytes: &mut Vec<u8>, alphabet: &[u8]) {
    for _ in 0..random.pick(&[1, 1, 1, 2, 5]) {
        let byte = if random.percent(80) { random.pick(alphabet) } else { random.next() as u8 };
        let place = random.below(bytes.len() + 1);
        match random.below(6) {
            0..=1 => bytes.insert(place, byte),
            2..=3 if place < bytes.len() => bytes[place] = byte,
            4 if place < bytes.len() => {
                bytes.remove(place);
            }
            5 if random.percent(30) => bytes.truncate(place),
            _ => {
                let other = random.below(bytes.len() + 1);
                if place < bytes.len() && other < bytes.len() {
                    bytes.swap(place, other);
                }
            }
        }
    }
}

/// A number of any length, of an atom or a window, perhaps with leading zeros.
fn any_number(random: &mut Random, text: &mut Vec<u8>) {
    match random.below(4) {
        0 => {
            // Beside the powers of two that a counter could wrap at.
            let power = random.pick(&[8, 16, 31, 32, 63, 64]);
            let number = (1u128 << power) + random.below(17) as u128;
            text.extend_from_slice(number.to_string().as_bytes());
        }
        1 => text.extend_from_slice(random.between(0, 70).to_string().as_bytes()),
        2 => {
            text.extend(std::iter::repeat_n(b'0', random.between(0, 2)));
            text.extend_from_slice(random.between(0, 300).to_string().as_bytes());
        }
        _ => {
            let digits = random.pick(&[3, 10, 19, 20, 21, 39, 40, 300, 1022, 1023, 1024]);
            text.push(b'1' + random.below(9) as u8);
            text.extend((1..digits).map(|_| b'0' + random.below(10) as u8));
        }
    }
}

/// The end of a text with numbers of any length: an atom, or a window and an atom.
fn numbered(random: &mut Random, text: &mut Vec<u8>) {
    if random.percent(50) {
        text.push(b'a');
        any_number(random, text);
        return;
    }
    let end = random.pick(&[b',', b']', 0]);
    text.extend_from_slice(random.pick(&[b"F[", b"G["]));
    for behind in *b",]" {
        if behind == end {
            text.extend_from_slice(random.between(0, 64).to_string().as_bytes());
        } else {
            any_number(random, text);
        }
        text.push(behind);
    }
    text.extend_from_slice(b"a0");
}

/// A window whose tokens are left out, doubled, parted or other ones, now and then.
fn torn_window(random: &mut Random, text: &mut Vec<u8>) {
    let (a, b) = window(random);
    for token in [random.pick(&["F", "G"]), "[", &a.to_string(), ",", &b.to_string(), "]", "a0"] {
        match random.below(30) {
            0 => {}
            1 => text.extend_from_slice(token.repeat(2).as_bytes()),
            2 => text.push(random.pick(ALPHABET)),
            3 => any_number(random, text),
            4 => text.extend_from_slice(&[b'0', token.as_bytes()[0]]),
            5 => text.extend(token.bytes().flat_map(|byte| [byte, b' '])),
            _ => text.extend_from_slice(token.as_bytes()),
        }
        text.extend(std::iter::repeat_n(b' ', random.pick(&[0, 0, 1, 2])));
    }
}

pub fn text(random: &mut Random, m: usize, text: &mut Vec<u8>) {
    let m = made_for(m);
    match random.below(100) {
        0..=44 => {
            let nodes = node_count(random);
            valid_text(random, m, nodes, text);
        }
        45..=66 => {
            let nodes = node_count(random);
            valid_text(random, m, nodes, text);
            damage(random, text, ALPHABET);
        }
        67..=72 => {
            // Tokens without a plan, mostly operand and operator in turn.
            text.clear();
            for place in 0..random.between(0, 30) {
                match (place % 2 == 0, random.percent(85)) {
                    (true, true) => {
                        text.push(b'a');
                        text.push(b'0' + random.below(m.min(10)) as u8);
                    }
                    (false, true) => text.push(random.pick(&BINARY).0),
                    _ => text.push(random.pick(ALPHABET)),
                }
            }
        }
        73..=74 => {
            text.clear();
            torn_window(random, text);
            for _ in 0..random.below(4) {
                text.push(random.pick(&BINARY).0);
                torn_window(random, text);
            }
        }
        75..=79 => {
            text.clear();
            let alphabet_only = random.percent(50);
            for _ in 0..random.pick(&[0, 1, 2, 3, 8, 40, 1023, 1024, 1025]) {
                text.push(if alphabet_only { random.pick(ALPHABET) } else { random.next() as u8 });
            }
        }
        80..=86 => {
            let nodes = random.pick(&[1, 2, 5, 30, 127, 128, 129]);
            valid_text(random, m, nodes, text);
            let length = random.between(MAX_TEXT - 2, MAX_TEXT + 2);
            let together = random.pick(&[10, MAX_TEXT]);
            pad(random, length, together, text);
            if random.percent(20) {
                damage(random, text, ALPHABET);
            }
        }
        87..=92 => {
            text.clear();
            if random.percent(50) {
                let nodes = random.between(1, 10);
                valid_text(random, m, nodes, text);
                text.push(random.pick(b"U&|>"));
            }
            numbered(random, text);
            if random.percent(30) {
                text.push(random.pick(b" )U&|>0"));
            }
        }
        _ => {
            // Prefixes and brackets around the limits.
            text.clear();
            let depth = random.pick(&[1, 60, 125, 126, 127, 128, 129, 200, 256, 340, 510, 511, 512, 1022, 1023, 1024]);
            let brackets = random.percent(50);
            let style = Style { spaces: 0, ..Style::random(random, m) };
            for _ in 0..depth {
                if brackets {
                    text.push(b'(');
                } else {
                    prefix(random, &style, text);
                }
            }
            text.extend_from_slice(random.pick(&[&b"a0"[..], b"a9", b"a16", b"a", b""]));
            if brackets {
                text.extend(std::iter::repeat_n(b')', depth));
            }
            if random.percent(20) {
                damage(random, text, ALPHABET);
            }
        }
    }
}

// ---------------------------------------------------------------------------------------------- tables

fn push_node(table: &mut Vec<u8>, kind: u8, left: usize, right: usize) {
    table.extend_from_slice(&[0x4E, 0x44, kind, left as u8, right as u8, 0, 0, 0]);
}

fn push_window(random: &mut Random, table: &mut Vec<u8>, left: usize, widest: bool) {
    let (a, b) = if widest { (0, MAX_AHEAD) } else { window(random) };
    table.extend_from_slice(&[0x4E, 0x44, random.pick(&[WITHIN, THROUGHOUT]), left as u8, 0, a as u8, b as u8, 0]);
}

/// A good table of any shape: shared and unused nodes, left equal to right, windows.
fn shaped_table(random: &mut Random, m: usize, nodes: usize, table: &mut Vec<u8>) {
    table.clear();
    let near = random.percent(50);
    let windows = random.pick(&[0, 20, 40, 95]);
    let widest = random.percent(20);
    for number in 0..nodes {
        let child = |random: &mut Random| {
            if near {
                number - random.between(1, number.min(3))
            } else {
                random.below(number)
            }
        };
        match random.below(12) {
            _ if number > 0 && random.percent(windows) => {
                let left = child(random);
                push_window(random, table, left, widest);
            }
            0..=3 if number > 0 => {
                let left = child(random);
                push_node(table, random.pick(&UNARY).1, left, 0);
            }
            4..=9 if number > 0 => {
                let left = child(random);
                let right = if random.percent(10) { left } else { child(random) };
                push_node(table, random.pick(&BINARY).1, left, right);
            }
            _ => push_node(table, ATOM, random.below(m), 0),
        }
    }
    shape::fill_heights(table, 0);
}

fn good_table(random: &mut Random, m: usize, table: &mut Vec<u8>) {
    let nodes = match random.below(100) {
        0..=69 => random.between(1, 12),
        70..=93 => random.between(13, 40),
        94..=96 => random.between(41, 126),
        _ => random.between(127, 128),
    };
    if random.percent(60) {
        let mut text = Vec::new();
        let style = Style { spaces: 0, brackets: 0, windows: random.pick(&[0, 70, 90]), refused: 0, atoms: m };
        phrase(random, &style, 0, nodes, &mut text);
        table.clear();
        table.resize(nodes * NODE_BYTES, 0);
        if reference::read(&text, m, table) == Ok(nodes) {
            return;
        }
    }
    shaped_table(random, m, nodes, table);
}

/// Changes one thing by which a table is no longer good, or may be so.
fn damage_table(random: &mut Random, m: usize, table: &mut Vec<u8>) {
    match random.below(32) {
        0..=6 => damage_size(random, m, table),
        7..=18 => {
            damage_record(random, m, table);
            // Mostly heights that fit the new record, so that it is refused for itself.
            if random.percent(70) {
                shape::fill_heights(table, 0);
            }
        }
        19 => damage(random, table, &[0x4E, 0x44, 0, 1, 2, 3, 8, 9, 10, 63, 64]),
        _ => damage_height(random, table),
    }
}

fn damage_size(random: &mut Random, m: usize, table: &mut Vec<u8>) {
    match random.below(7) {
        0 => table.clear(),
        1 => table.truncate(4),
        2 => {
            let length = random.below(table.len());
            table.truncate(length);
        }
        3 => table.push(random.pick(&[0, 1, 0x4E])),
        4 => {
            shaped_table(random, m, MAX_NODES, table);
            table.push(0x4E);
        }
        5 => {
            let nodes = random.pick(&[129, 130, 256, 257]);
            shaped_table(random, m, nodes, table);
        }
        _ => {
            // The layouts of before: records without a height, and without a window either.
            let length = random.pick(&[5, 7, 7]);
            *table = table.chunks_exact(NODE_BYTES).flat_map(|record| &record[..length]).copied().collect();
        }
    }
}

fn damage_record(random: &mut Random, m: usize, table: &mut [u8]) {
    let number = random.below(shape::len(table));
    let record = &mut table[number * NODE_BYTES..][..NODE_BYTES];
    match random.below(12) {
        0 => record[random.below(2)] ^= 1 << random.below(8),
        1 => record[2] = random.pick(&[0, 1, 2, 3, 4, 5, 6, 7, 8, 9, 10, 11, 64, 128, 255]),
        2 => record[3] = number as u8,
        3 => record[4] = number as u8,
        4 => record[3] = random.pick(&[m, m - 1, 16, 127, 128, 255]) as u8,
        5 => record[4] = random.pick(&[0, 1, 127, 128, 255]),
        6 => record[random.below(NODE_BYTES)] = random.next() as u8,
        7 => record[5] = random.pick(&[0, 1, 5, 62, 63, 64, 128, 255]),
        8 => record[6] = random.pick(&[0, 1, 5, 62, 63, 64, 65, 128, 255]),
        9 => record.swap(5, 6),
        _ => {
            // A node with a window, as the node's own kind or a window's.
            let (a, b) = if random.percent(50) { window(random) } else { refused_window(random) };
            record[2] = random.pick(&[record[2], WITHIN, THROUGHOUT]);
            record[5..7].copy_from_slice(&[a as u8, b as u8]);
        }
    }
}

/// Changes a height, at any node or at one that the root does not use; in half of the tables those above follow it, so
/// that the one record alone is wrong.
fn damage_height(random: &mut Random, table: &mut [u8]) {
    let unused = shape::unused(table);
    let any = random.below(shape::len(table));
    let node = if unused.is_empty() || random.percent(50) { any } else { random.pick(&unused) };
    let lowest = shape::heights_under(table, node).min().unwrap_or(0);
    let height = &mut table[node * NODE_BYTES + HEIGHT];
    *height = match random.below(8) {
        0..=1 => *height + 1,
        2 => height.wrapping_sub(1),
        3..=4 => lowest + 1,
        5 => lowest,
        6 => 0,
        _ => random.next() as u8,
    };
    if random.percent(50) {
        shape::fill_heights(table, node + 1);
    }
}

pub fn table(random: &mut Random, m: usize, table: &mut Vec<u8>) {
    let m = made_for(m);
    if random.percent(1) {
        table.clear();
        for _ in 0..random.below(30) {
            table.push(random.next() as u8);
        }
        return;
    }
    // A table for fewer or more atoms than are asked, now and then.
    let m = if random.percent(3) { random.between(1, 16) } else { m };
    good_table(random, m, table);
    if random.percent(16) {
        damage_table(random, m, table);
    }
}

// ------------------------------------------------------------------------------------ runs and figures

/// A run of the right length in which each atom stays as it was for a while.
fn good_run(random: &mut Random, t: usize, m: usize, run: &mut Vec<u16>) {
    run.clear();
    let mask = ((1u32 << m) - 1) as u16;
    let mut numbers = random.next() as u16 & mask;
    let change = random.between(0, 3);
    for _ in 0..t.min(reference::MAX_SLOTS) {
        run.push(numbers);
        // Each of the steps halves the chance of a change.
        let flips = (0..change).fold(mask, |flips, _| flips & random.next() as u16);
        numbers ^= flips;
    }
}

pub fn run(random: &mut Random, Plan { t, m, .. }: Plan, run: &mut Vec<u16>) {
    good_run(random, t, made_for(m), run);
    match random.below(100) {
        0..=1 => run.push(0),
        2..=3 => {
            run.pop();
        }
        4 => run.clear(),
        5 => run.resize(random.below(200), 0),
        6..=8 if !run.is_empty() => {
            let place = random.below(run.len());
            run[place] |= 1 << random.between(m.min(15), 15);
        }
        9 if !run.is_empty() => {
            let place = random.below(run.len());
            run[place] = random.pick(&[0xFFFF, 0x8000, 0x0100]);
        }
        _ => {}
    }
}

fn off_by(random: &mut Random, most: i32) -> i32 {
    random.between(0, 2 * most as usize) as i32 - most
}

/// From 0 or 1,000,000 towards the other, so that a figure is not outside.
fn inwards(figure: i32, off: i32) -> i32 {
    if figure == 0 {
        off
    } else {
        -off
    }
}

/// The figures of a run and of the truth over it, a byte for each slack.
fn figures_of(run: &[u16], m: usize, truth: &[u8]) -> impl Iterator<Item = i32> {
    let one = reference::ONE as i32;
    let atoms = (0..m).flat_map(|atom| run.iter().map(move |numbers| (numbers >> atom & 1) as u8));
    let all: Vec<u8> = atoms.chain(truth.iter().copied()).collect();
    all.into_iter().map(move |bit| i32::from(bit) * one)
}

/// The truth of all slacks; of a damaged table zeros, as many as it would have.
fn truth_of(table: &[u8], plan: Plan, run: &[u16]) -> Vec<u8> {
    let slacks = (shape::len(table) + shape::with_seconds(table, plan).len()) * plan.t;
    reference::slack_truth(table, plan, run).unwrap_or_else(|_| vec![0; slacks])
}

/// A root's truth at slot 1, or none where the table has no node.
fn root_truth(table: &[u8], plan: Plan, truth: &[u8]) -> Option<u8> {
    Some(truth[shape::len(table).checked_sub(1)? * plan.t])
}

/// Figures near the one solution of a table's rows, with the ways in which a solver's can differ.
pub fn figures(random: &mut Random, table: &[u8], asked: Plan, e: i32, figures: &mut Vec<i32>) {
    let plan = made_for_plan(asked);
    let e = e.clamp(0, 1000);
    let drifts = random.percent(25);
    let (mut run, mut truth) = (Vec::new(), Vec::new());
    // Mostly one over which the rule holds. Where errors add up, figures may pass without, most so where nothing changes.
    for _ in 0..if drifts { random.between(1, 4) } else { 3 } {
        good_run(random, plan.t, plan.m, &mut run);
        if drifts && random.percent(40) {
            let numbers = run[0];
            run.fill(numbers);
        }
        truth = truth_of(table, plan, &run);
        if root_truth(table, plan, &truth) == Some(1) {
            break;
        }
    }
    figures.clear();
    figures.extend(figures_of(&run, plan.m, &truth));
    let seconds = shape::with_seconds(table, plan);
    if drifts {
        drift(random, table, plan, e, figures);
    } else if !seconds.is_empty() && random.percent(25) {
        differ_in_loop(random, &seconds, shape::len(table), plan, e, figures);
    } else {
        differ(random, plan.m * plan.t, e, figures);
    }
}

/// Gives figures that hold within e and whose errors add up: each slack is on the way from its truth to the end of what
/// its rows allow, the end that helps the root to hold.
fn drift(random: &mut Random, table: &[u8], plan: Plan, e: i32, figures: &mut [i32]) {
    let whole = random.pick(&[0, 50, 95, 100, 100]);
    let beyond = if random.percent(50) { e } else { 0 };
    let one = reference::ONE as i32;
    let side = random.pick(&[-1, 0, 1, 1]);
    for figure in &mut figures[..plan.m * plan.t] {
        let off = if random.percent(whole) { side * e } else { off_by(random, e) };
        *figure = (*figure + off).clamp(-beyond, one + beyond);
    }
    let helps = shape::helping_root(table);
    let choose = |node: usize, truth: i32, low: i32, high: i32| {
        let end = if helps[node] { high.min(one + beyond) } else { low.max(-beyond) }.clamp(low, high);
        let start = truth.clamp(low, high);
        let way = random.between(0, start.abs_diff(end) as usize) as i32;
        if random.percent(whole) {
            end
        } else {
            start + way * (end - start).signum()
        }
    };
    // A damaged table has no rows, and its figures stay.
    let _ = reference::settle(table, plan, e, figures, choose);
}

/// The ways in which P and V of a node can differ, where `seconds` are the nodes that have V.
fn differ_in_loop(random: &mut Random, seconds: &[usize], nodes: usize, plan: Plan, e: i32, figures: &mut Vec<i32>) {
    let Plan { t, m, l } = plan;
    let one = reference::ONE as i32;
    let number = random.below(seconds.len());
    let (own, second) = ((m + seconds[number]) * t, (m + nodes + number) * t);
    let any = random.below(t);
    let place = second + random.pick(&[0, l - 1, t - 1, any]);
    let off = e + random.below(2) as i32;
    match random.below(10) {
        0..=1 => figures[place] += inwards(figures[place], off),
        2 => figures[place] += random.pick(&[-off, off]),
        3 => figures[place] = one - figures[place],
        4 => figures[own + t - 1] += inwards(figures[own + t - 1], off),
        5..=6 => circle(random, own, second, plan, figures),
        7 => {
            // V as P is, or P as V is.
            let (from, to) = random.pick(&[(own, second), (second, own)]);
            figures.copy_within(from..from + t, to);
        }
        8 => {
            // None of V, as where L is T, or all but the last block of them.
            let blocks = random.pick(&[0, seconds.len() - 1]);
            figures.truncate((m + nodes + blocks) * t);
        }
        _ => figures.extend_from_within(figures.len() - t..),
    }
}

/// A circle of ones or of zeros, which feeds itself, in P and perhaps in V.
fn circle(random: &mut Random, own: usize, second: usize, Plan { t, l, .. }: Plan, figures: &mut [i32]) {
    let same = random.pick(&[0, reference::ONE as i32]);
    figures[own + l - 1..own + t].fill(same);
    if random.percent(50) {
        let kept = random.below(2);
        figures[second + l - 1..second + t - kept].fill(same);
    }
}

/// The other ways, with the number of atom variables.
fn differ(random: &mut Random, atoms: usize, e: i32, figures: &mut Vec<i32>) {
    let one = reference::ONE as i32;
    let count = figures.len();
    let place = random.below(count);
    let slack = if atoms == count { place } else { random.between(atoms, count - 1) };
    match random.below(20) {
        0..=2 => {}
        3 => figures.iter_mut().for_each(|figure| *figure += off_by(random, e / 3)),
        4 => figures.iter_mut().for_each(|figure| *figure += off_by(random, e)),
        5 => figures.iter_mut().for_each(|figure| *figure += inwards(*figure, off_by(random, e / 3).abs())),
        6..=7 => figures[place] += random.pick(&[-1, 1]) * (e + random.below(2) as i32),
        8..=9 => {
            let off = e + random.below(2) as i32;
            figures[slack] += inwards(figures[slack], off);
        }
        10 => figures[slack] = one - figures[slack],
        11 => figures[slack] = random.between(0, one as usize) as i32,
        12 => figures[place] = random.pick(&[e, e + 1, one - e, one - e - 1, one / 2]),
        13 => figures[place] = random.pick(&[-e, -e - 1, one + e, one + e + 1, -1, one + 1]),
        14 => figures[place] = random.pick(&[i32::MIN, i32::MAX, i32::MIN + 1, i32::MAX - 1, 2 * one, -one]),
        15 => {
            for _ in 0..random.between(1, 4) {
                let place = random.below(count);
                figures[place] += off_by(random, e + 2);
            }
        }
        16 => figures.iter_mut().for_each(|figure| *figure = random.next() as i32),
        17 => figures[atoms..].iter_mut().for_each(|figure| *figure = random.between(0, one as usize) as i32),
        18 => {
            // All slacks on the same figure: only the rows decide.
            let same = random.pick(&[0, one, one / 2, e, one - e]);
            figures[atoms..].iter_mut().for_each(|figure| *figure = same);
        }
        _ => other_length(random, figures),
    }
}

fn other_length(random: &mut Random, figures: &mut Vec<i32>) {
    match random.below(6) {
        0..=1 => figures.push(0),
        2..=3 => {
            figures.pop();
        }
        4 => figures.clear(),
        _ => figures.resize(random.below(2 * figures.len() + 1), reference::ONE as i32),
    }
}

/// A word with many bits set or few, perhaps with none below some slot.
pub fn word(random: &mut Random) -> u64 {
    // Each of the steps halves the chance of a set bit, or of an unset one.
    let thin = (0..random.below(8)).fold(u64::MAX, |word, _| word & random.next());
    let word = if random.percent(30) { !thin } else { thin };
    match random.below(10) {
        0..=4 => word,
        5..=7 => word << random.below(64),
        8 => word >> random.below(64),
        _ => 1 << random.below(64),
    }
}

// ------------------------------------------------------------------------------------- for the timings

/// A text of exactly `nodes` nodes, mostly untils, filled with spaces up to the longest length.
pub fn largest_text(nodes: usize, m: usize) -> Vec<u8> {
    fn untils(atoms: &mut usize, m: usize, leaves: usize, text: &mut Vec<u8>) {
        if leaves == 1 {
            text.extend_from_slice(format!("a{}", *atoms % m).as_bytes());
            *atoms += 1;
            return;
        }
        text.push(b'(');
        untils(atoms, m, leaves / 2, text);
        text.push(b'U');
        untils(atoms, m, leaves - leaves / 2, text);
        text.push(b')');
    }
    let mut text = Vec::new();
    let mut left = nodes;
    if left % 2 == 0 {
        text.push(b'G');
        left -= 1;
    }
    untils(&mut 0, m, left.div_ceil(2), &mut text);
    pad(&mut Random::new(1), MAX_TEXT, 1, &mut text);
    text
}

/// A text of 128 nodes, all but the first with the widest window: the most rows that a table can have.
pub fn largest_windows() -> Vec<u8> {
    let prefixes = (1..MAX_NODES).map(|number| if number % 2 == 0 { "F[0,63]" } else { "G[0,63]" });
    prefixes.chain(["a0"]).collect::<String>().into_bytes()
}

/// A run over which the table's root has this truth, 0 or 1: where it is 1, the judge passes its figures, and where it
/// is 0, the goal row alone is broken.
pub fn run_with(table: &[u8], plan: Plan, root: usize) -> Vec<u16> {
    let mut random = Random::new(1);
    let mut run = Vec::new();
    let mut words = vec![0; shape::len(table)];
    loop {
        good_run(&mut random, plan.t, plan.m, &mut run);
        // The same numbers at all slots in every other try.
        for _ in 0..2 {
            if reference::evaluate(table, plan, &run, &mut words) == Ok(root) {
                return run;
            }
            let numbers = run[0];
            run.fill(numbers);
        }
    }
}

/// The exact solution of the table's rows over a run, the goal row aside.
pub fn solution(table: &[u8], plan: Plan, run: &[u16]) -> Vec<i32> {
    let truth = reference::slack_truth(table, plan, run).expect("a table and a run");
    figures_of(run, plan.m, &truth).collect()
}
