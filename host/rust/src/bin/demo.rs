//! A demonstration: one mask polynomial, one Decompose and eight verdicts in shares, on random words of the system. It says what
//! the calls opened, and how many words they used beside the draws of the formulas.

use std::error::Error;
use std::fs::File;
use std::io::{self, Read, Write};
use std::process::ExitCode;
use xechanopu::parameters::{Set, COEFFICIENTS, Q};
use xechanopu::{draws, Refusal};

const USAGE: &str = "usage: demo [set] [n], where the set is 44, 65 or 87 and n is 2 to 8; without them 44 and 3";

/// What the arguments choose.
struct Choice {
    number: u32,
    set: Set,
    n: usize,
}

/// Whether everything that was shown came out as it must.
type Right = Result<bool, Box<dyn Error>>;

/// The choice, or what is wrong with the arguments.
fn choice(arguments: &[String]) -> Result<Choice, String> {
    if arguments.iter().any(|argument| argument == "--help" || argument == "-h") {
        return Err("it shows masked gadgets at work".into());
    }
    if arguments.len() > 2 {
        return Err(format!("there are {} arguments, two at most are read", arguments.len()));
    }
    let number = number_or(44, arguments.first())?;
    let set = Set::of(number).ok_or(format!("{number} is no parameter set"))?;
    let n = number_or(3, arguments.get(1))? as usize;
    if !(2..=8).contains(&n) {
        return Err(format!("{n} is no share count"));
    }
    Ok(Choice { number, set, n })
}

fn number_or(otherwise: u32, argument: Option<&String>) -> Result<u32, String> {
    argument.map_or(Ok(otherwise), |word| word.parse().map_err(|_| format!("'{word}' is no number below 2^32")))
}

fn random_words(count: usize) -> io::Result<Vec<u32>> {
    let mut bytes = vec![0; 4 * count];
    File::open("/dev/urandom")?.read_exact(&mut bytes)?;
    Ok(bytes.chunks(4).map(|four| u32::from_le_bytes([four[0], four[1], four[2], four[3]])).collect())
}

/// Fresh words for one call. Some are skipped, nearly a third of them in Decompose of set 44, so there are far more than the draws.
fn tape(draws: usize) -> io::Result<Vec<u32>> {
    random_words(2 * draws + 100)
}

/// Shares of a residue: all of it in the first, and then a refresh.
fn share(residue: u32, n: usize) -> Result<Vec<u32>, Box<dyn Error>> {
    let mut whole = vec![0; n];
    whole[0] = residue;
    let mut shares = vec![0; n];
    xechanopu::refresh(&whole, &tape(draws::refresh(n)?)?, Q, &mut shares)?;
    Ok(shares)
}

/// The signed number that shares modulo q stand for. It is put together only to be shown.
fn recombined(shares: &[u32]) -> i64 {
    let residue = shares.iter().map(|&share| i64::from(share)).sum::<i64>() % i64::from(Q);
    if residue > i64::from(Q / 2) {
        residue - i64::from(Q)
    } else {
        residue
    }
}

/// FIPS 204's Decompose, without shares.
fn plain_decompose(set: Set, residue: u32) -> (i64, i64) {
    let (r, half) = (i64::from(residue), i64::from(set.gamma2));
    let low = half - (half - r).rem_euclid(2 * half);
    if r - low == i64::from(Q) - 1 {
        (0, low - 1)
    } else {
        ((r - low) / (2 * half), low)
    }
}

fn words(used: usize, draws: usize) -> String {
    format!("{used} words = {draws} draws + {} skipped", used - draws)
}

fn mark(right: bool) -> &'static str {
    if right {
        "right"
    } else {
        "WRONG"
    }
}

impl Choice {
    fn mask(&self, to: &mut impl Write) -> Right {
        let draws = draws::sample_polynomial(self.n)?;
        let mut out = vec![0; COEFFICIENTS * self.n];
        let used = xechanopu::sample_polynomial(&tape(draws)?, self.n, self.number, &mut out)?;
        let numbers: Vec<i64> = out.chunks(self.n).map(recombined).collect();
        let (least, most) = numbers.iter().fold((i64::MAX, i64::MIN), |(l, m), &x| (l.min(x), m.max(x)));
        let (first, last) = (1 - i64::from(self.set.gamma1), i64::from(self.set.gamma1));
        let right = first <= least && most <= last;
        writeln!(to, "mask polynomial     256 coefficients in {} words", out.len())?;
        writeln!(to, "  tape              {}", words(used, draws))?;
        writeln!(to, "  opened            nothing")?;
        writeln!(to, "  recombined *      {least} to {most}, to lie in {first} .. {last}: {}", mark(right))?;
        Ok(right)
    }

    fn decompose(&self, to: &mut impl Write) -> Right {
        // Not quite evenly spread, which does not matter here.
        let residue = random_words(1)?[0] % Q;
        let draws = draws::decompose(self.n)?;
        let mut out = vec![0; self.n];
        let told = xechanopu::decompose(&share(residue, self.n)?, &tape(draws)?, self.number, &mut out)?;
        let (high, low) = plain_decompose(self.set, residue);
        let rights = (i64::from(told.high) == high, recombined(&out) == low);
        writeln!(to, "Decompose           of {residue}, without shares: high part {high}, low part {low}")?;
        writeln!(to, "  tape              {}", words(told.used, draws))?;
        writeln!(to, "  opened            high part {}: {}", told.high, mark(rights.0))?;
        writeln!(to, "  recombined *      low part {}: {}", recombined(&out), mark(rights.1))?;
        Ok(rights.0 && rights.1)
    }

    fn verdict(&self, kind: u32, number: i64, accepts: bool, to: &mut impl Write) -> Right {
        let shares = share(number.rem_euclid(i64::from(Q)) as u32, self.n)?;
        let draws = draws::verdict(self.n, self.number, kind)?;
        let told = xechanopu::verdict(&shares, &tape(draws)?, self.number, kind)?;
        let right = told.accepted == accepts;
        let said = if told.accepted { "accepted" } else { "rejected" };
        let words = words(told.used, draws);
        writeln!(to, "  {number:>7}           opened {:>7}, {said}: {}; {words}", told.opened, mark(right))?;
        Ok(right)
    }

    /// The numbers on both sides of the bound.
    fn verdicts(&self, kind: u32, of: &str, to: &mut impl Write) -> Right {
        let a = i64::from(self.set.kind(kind).ok_or(Refusal::Parameter)?.a);
        writeln!(to, "verdict on {of:<9}accepts sizes below {a}")?;
        let mut right = true;
        for (number, accepts) in [(a - 1, true), (1 - a, true), (a, false), (-a, false)] {
            right &= self.verdict(kind, number, accepts, to)?;
        }
        Ok(right)
    }

    fn show(&self, to: &mut impl Write) -> Right {
        writeln!(to, "Parameter set {}, {} shares modulo {Q}, random words from the system.\n", self.number, self.n)?;
        if let Err(case) = xechanopu::self_test() {
            writeln!(to, "self test           case {case} came out wrong: the hardware or the build is faulty")?;
            return Ok(false);
        }
        writeln!(to, "self test           passed")?;
        let right = [self.mask(to)?, self.decompose(to)?, self.verdicts(1, "z", to)?, self.verdicts(2, "r~", to)?];
        writeln!(to, "\n* Recombined here only to show it; a device never does that.")?;
        writeln!(to, "Opened: the high part, and one number for each verdict. It is 0 where the verdict rejects,")?;
        writeln!(to, "and else a product with random factors. The mask, the low part and the judged numbers went")?;
        writeln!(to, "to and from the calls in shares only.")?;
        Ok(right == [true; 4])
    }
}

/// What ended the run.
fn sentence(error: &(dyn Error + 'static)) -> String {
    match error.downcast_ref::<Refusal>() {
        Some(refusal) => format!("a call was refused with number {}: {refusal}", refusal.number()),
        None => error.to_string(),
    }
}

fn main() -> ExitCode {
    let arguments: Vec<String> = std::env::args_os().skip(1).map(|word| word.to_string_lossy().into_owned()).collect();
    let choice = match choice(&arguments) {
        Ok(choice) => choice,
        Err(wrong) => {
            eprintln!("demo: {wrong}; {USAGE}");
            return ExitCode::from(2);
        }
    };
    match choice.show(&mut io::stdout().lock()) {
        Ok(true) => ExitCode::SUCCESS,
        Ok(false) => ExitCode::FAILURE,
        Err(error) => {
            eprintln!("demo: {}", sentence(&*error));
            ExitCode::FAILURE
        }
    }
}
