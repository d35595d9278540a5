//! Times the library beside a plain Rust implementation of the same steps, after checking that both answer the same.

mod agree;
mod answers;
mod clock;
mod gadget;
mod plain;
mod random;
mod side;

use gadget::{Gadget, ALL};
use std::process::ExitCode;

/// The ratio of the two times, and where it was found.
struct Ratio {
    ratio: f64,
    gadget: Gadget,
    n: usize,
}

/// One line of the table for each share count.
fn table(gadgets: &[Gadget]) -> Vec<Ratio> {
    let points: Vec<(Gadget, usize)> = gadgets.iter().flat_map(|&gadget| [2, 3, 4, 8].map(|n| (gadget, n))).collect();
    let times = clock::times(&points);
    println!("{:18} n    draws    words    library ns      plain ns  ratio  library ns/draw", "gadget");
    let mut ratios = Vec::new();
    for ((gadget, n), t) in points.into_iter().zip(times) {
        let draws = gadget.draws(n);
        let ratio = t.library / t.plain;
        let per_draw = t.library / draws as f64;
        println!(
            "{:18} {n} {draws:8} {:8.1} {:13.1} {:13.1} {ratio:6.2} {per_draw:16.2}",
            gadget.name(),
            t.words,
            t.library,
            t.plain,
        );
        ratios.push(Ratio { ratio, gadget, n });
    }
    ratios
}

/// How the verdict's cost grows with the share count.
fn growth() {
    let points: Vec<(Gadget, usize)> = (2..=8).map(|n| (Gadget::Verdict, n)).collect();
    println!();
    println!("verdict, growth    n    draws    library ns  against n = 2  ns/draw  against n = 2");
    let mut first = None;
    for (&(_, n), t) in points.iter().zip(clock::times(&points)) {
        let time = t.library;
        let draws = Gadget::Verdict.draws(n);
        let per_draw = time / draws as f64;
        let (time_2, per_draw_2) = *first.get_or_insert((time, per_draw));
        let (grown, grown_per_draw) = (time / time_2, per_draw / per_draw_2);
        println!("                   {n} {draws:8} {time:13.1} {grown:14.2} {per_draw:8.2} {grown_per_draw:14.2}");
    }
}

/// The gadgets that the words of the command line name: all, or one.
fn chosen(words: &[String]) -> Result<Vec<Gadget>, String> {
    match words {
        [] => Ok(ALL.to_vec()),
        [name] => match ALL.iter().find(|g| g.name() == name) {
            Some(&gadget) => Ok(vec![gadget]),
            None => Err(format!("There is no gadget {name}; there are {}.", ALL.map(Gadget::name).join(", "))),
        },
        _ => Err("Name one gadget, or none for all.".to_string()),
    }
}

fn main() -> ExitCode {
    let words: Vec<String> = std::env::args().skip(1).collect();
    let gadgets = match chosen(&words) {
        Ok(gadgets) => gadgets,
        Err(sentence) => {
            eprintln!("{sentence}");
            return ExitCode::from(2);
        }
    };
    println!("Both sides answered the same in {} calls.", agree::check(&gadgets));
    println!();
    let ratios = table(&gadgets);
    if gadgets.contains(&Gadget::Verdict) {
        growth();
    }
    let largest = ratios.iter().max_by(|x, y| x.ratio.total_cmp(&y.ratio)).expect("a gadget was timed");
    println!();
    println!("The largest ratio is {:.2}, of {} with n = {}.", largest.ratio, largest.gadget.name(), largest.n);
    ExitCode::SUCCESS
}
