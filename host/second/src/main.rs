//! The second is told the name of a program and prints the lines that this program has to print: of `cases`, from the calls that
//! docs/CASES.md lists, made on the second itself; of `residues`, from FIPS 204's Decompose.

use second::inputs::{self, Gadget, Input};
use second::library::Answer;
use second::parameters::Pair;
use second::tape::Tape;
use second::{residues, sets, steps};

#[derive(Default)]
struct Tally {
    counts: [u32; 6],
    sum: u32,
}

impl Tally {
    fn note(&mut self, answer: &Answer, slice: &[u32]) {
        self.counts[answer.number as usize] += 1;
        let told = [&[answer.number], &answer.fields[..], &[answer.used as u32], slice].concat();
        self.sum = told.into_iter().fold(self.sum, inputs::mix);
    }
}

/// The words of the array, which began as 7s and whose first words were lent to the call.
fn array_after(answer: &Answer, input: &Input) -> Vec<u32> {
    let mut array = vec![7; input.array];
    if let Some(out) = &answer.out {
        array[..out.len()].copy_from_slice(out);
    }
    array
}

fn call(gadget: &Gadget, input: &Input, words: usize, tally: &mut Tally) -> usize {
    let answer = gadget.call(input, words);
    tally.note(&answer, &array_after(&answer, input));
    answer.used
}

fn joined(words: &[u32]) -> String {
    let words: Vec<String> = words.iter().map(u32::to_string).collect();
    words.join(" ")
}

fn print_tally(gadget: &Gadget, calls: &str, tally: &Tally) {
    println!("{} {} {} {}", gadget.name, calls, joined(&tally.counts), tally.sum);
}

fn line(gadget: &Gadget, n: usize) {
    let mut tally = Tally::default();
    for round in 0..gadget.size.rounds {
        let input = gadget.input(n, round);
        let used = call(gadget, &input, input.tape.len(), &mut tally);
        if used > 0 {
            for words in gadget.cuts(n, used) {
                call(gadget, &input, words, &mut tally);
            }
        }
    }
    print_tally(gadget, &n.to_string(), &tally);
}

fn far_line(sampler: &Gadget) {
    let mut tally = Tally::default();
    for input in &inputs::far() {
        call(sampler, input, input.tape.len(), &mut tally);
    }
    print_tally(sampler, "far", &tally);
}

fn draw_line(words: &[u32]) {
    let mut tape = Tape::new(words);
    match tape.draw(sets::Q) {
        Some(number) => println!("draw {} {}", number, tape.used()),
        None => println!("draw ended"),
    }
}

fn hand_line(gadget: &Gadget, input: &Input) {
    let answer = gadget.call(input, input.tape.len());
    println!("{} {} {} {}", gadget.name, answer.number, answer.used, joined(&array_after(&answer, input)));
}

/// A case of Decompose in n shares. What is answered is what the page gives.
fn parts_line(residue: u32, parts: (u32, i64), n: usize) {
    let input = inputs::decompose_shared(residue, n);
    let answer = inputs::DECOMPOSE.call(&input, input.tape.len());
    let low: Vec<u64> = array_after(&answer, &input).iter().map(|&share| u64::from(share)).collect();
    let high = answer.fields[0];
    assert_eq!((high, steps::centred(&low, sets::Q)), parts);
    println!("decompose {} {} {} {} {}", n, residue, answer.number, high, steps::value(&low, sets::Q));
}

/// The residue of a signed number.
fn residue(number: i64) -> u32 {
    number.rem_euclid(sets::Q as i64) as u32
}

/// A case of the verdict in n shares, on a tape of zeros. No word is skipped, so the words used are the draws that the page gives.
fn verdict_line(number: i64, verdict: u32, n: usize) {
    let residue = residue(number);
    let input = inputs::verdict_on_zeros(residue, n);
    let Answer { number, fields, used, .. } = inputs::VERDICT.call(&input, input.tape.len());
    assert_eq!((number, fields[0]), (0, verdict));
    assert!(n != 2 || used == 24);
    assert!(n != 8 || used == 1079);
    println!("verdict {n} {residue} {number} {} {used}", joined(&fields));
}

/// The verdicts on numbers from one side of the bound to the end of the reach, in n shares. It accepts below the bound.
fn verdicts_line(parameters: Pair, n: usize) {
    let verdicts = inputs::verdict_numbers(parameters).map(|number| {
        let input = inputs::verdict_shared(parameters, residue(number), n);
        let answer = inputs::VERDICT.call(&input, input.tape.len());
        assert_eq!(answer.number, 0);
        answer.fields[0]
    });
    assert_eq!(verdicts, [1, 1, 0, 0, 0, 0, 0, 0]);
    println!("verdict {} {} {n} {}", parameters.0, parameters.1, joined(&verdicts));
}

fn cases() {
    draw_line(&[8380417, 8380416]);
    draw_line(&[8388608, 0]);
    for (gadget, input) in &inputs::by_hand() {
        hand_line(gadget, input);
    }
    for gadget in &inputs::GADGETS {
        for n in 0..=10 {
            line(gadget, n);
        }
    }
    far_line(&inputs::SAMPLE);
    far_line(&inputs::SAMPLE_POLYNOMIAL);
    for n in 2..=8 {
        for (residue, parts) in inputs::DECOMPOSE_BY_HAND {
            parts_line(residue, parts, n);
        }
    }
    for n in 2..=8 {
        for (number, verdict) in inputs::VERDICT_BY_HAND {
            verdict_line(number, verdict, n);
        }
    }
    for set in [44, 65, 87] {
        for kind in [1, 2] {
            for n in 2..=8 {
                verdicts_line((set, kind), n);
            }
        }
    }
}

fn main() {
    match std::env::args().nth(1).as_deref() {
        Some("cases") => cases(),
        Some("residues") => residues::print(),
        _ => panic!("say which program's lines to print: cases or residues"),
    }
}
