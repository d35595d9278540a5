//! Every refusal of every gadget, alone and together with every other, so that the order of the checks is seen; what a refusal
//! leaves; and that the draws of the formula suffice.

mod common;

use common::{Call, Gadget, GADGETS};
use xechanopu::{draws, Refusal};

const COUNTS: std::ops::RangeInclusive<usize> = 2..=8;

/// A call that succeeds, on a tape of zeros, of which none is skipped, with a word for each draw.
fn good(gadget: Gadget, n: usize, parameters: (u32, u32)) -> Call {
    let words = gadget.draws(n, parameters).expect("they are in range");
    let shares = if gadget.is_sampler() { Vec::new() } else { vec![0; n] };
    let out = (1..=gadget.room(n) as u32).collect();
    Call { gadget, n, shares, tape: vec![0; words], parameters, out }
}

/// The call with the faults put in whose bits are set. Several calls have the same faults; `turn` chooses among them.
fn with_faults(mut call: Call, faults: u32, turn: usize) -> Call {
    let has = |number: u32| faults >> number & 1 == 1;
    let chosen = |choices: &[usize]| choices[turn % choices.len()];
    let limit = call.gadget.limit(call.parameters);
    if has(1) {
        call.n = chosen(&[0, 1, 9, 10]);
        call.shares.resize(if call.gadget.is_sampler() { 0 } else { call.n }, 0);
        call.out.resize(call.gadget.room(call.n), 7);
    }
    if has(2) {
        let right = call.out.len();
        call.out.resize(chosen(&[right + 1, right.saturating_sub(1), right + 256, right / 2, 0]), 7);
        // Half or less of no words is no fault.
        if call.out.len() == right {
            call.out.push(7);
        }
    }
    if has(3) {
        let bad = call.gadget.bad_parameters();
        call.parameters = bad[turn % bad.len()];
    }
    if has(4) && !call.shares.is_empty() {
        let place = turn % call.shares.len();
        call.shares[place] = [limit, u64::from(u32::MAX)][turn % 2] as u32;
    }
    if has(5) {
        call.tape.truncate(chosen(&[call.tape.len() - 1, 0, call.tape.len() / 2]));
    }
    call
}

/// The number that answers: that of the first fault.
fn first(faults: u32) -> u32 {
    (1..=5).find(|number| faults >> number & 1 == 1).unwrap_or(0)
}

/// Faults that this gadget can have.
fn fault_sets(gadget: Gadget) -> impl Iterator<Item = u32> {
    let possible = move |faults: u32| (1..=5).all(|number| faults >> number & 1 == 0 || gadget.can_answer(number));
    (0..64).step_by(2).filter(move |&faults| possible(faults))
}

fn check(call: &Call, number: u32) {
    let told = call.told();
    assert_eq!(told.number, number, "{call:?}");
    if number == 0 {
        assert_eq!(told.used, call.tape.len() as u64, "{call:?}");
        return;
    }
    assert_eq!(told.used, 0, "{call:?}");
    assert!(told.fields.iter().all(|&field| field == 0), "{call:?}");
    if number == 5 && call.gadget == Gadget::SamplePolynomial {
        assert!(told.out.iter().all(|&word| word == 0), "{call:?}");
    } else {
        assert_eq!(told.out, call.out, "{call:?}");
    }
}

#[test]
fn the_first_fault_answers() {
    for gadget in GADGETS {
        let mut turn = 0;
        for (n, parameters) in COUNTS.flat_map(|n| gadget.good_parameters().into_iter().map(move |pair| (n, pair))) {
            for faults in fault_sets(gadget) {
                turn += 1;
                check(&with_faults(good(gadget, n, parameters), faults, turn), first(faults));
            }
        }
    }
}

#[test]
fn every_bad_parameter_is_refused() {
    for gadget in GADGETS {
        let parameters = gadget.good_parameters()[0];
        for bad in gadget.bad_parameters() {
            check(&Call { parameters: bad, ..good(gadget, 3, parameters) }, 3);
        }
    }
}

#[test]
fn every_place_of_a_share_is_checked() {
    for gadget in GADGETS.into_iter().filter(|gadget| gadget.can_answer(4)) {
        for (n, parameters) in COUNTS.flat_map(|n| gadget.good_parameters().into_iter().map(move |pair| (n, pair))) {
            for place in 0..n {
                let mut call = good(gadget, n, parameters);
                call.shares[place] = gadget.limit(parameters) as u32;
                check(&call, 4);
                call.shares[place] -= 1;
                check(&Call { tape: Vec::new(), ..call }, 5);
            }
        }
    }
}

#[test]
fn share_counts_far_too_large() {
    for gadget in [Gadget::Sample, Gadget::SamplePolynomial] {
        for n in [11, 256 + 2, (1 << 32) + 2, 1 << 56, (1 << 56) + 2, usize::MAX] {
            for room in [0, 2, 512, 2560] {
                check(&Call { n, out: vec![7; room], ..good(gadget, 2, (44, 0)) }, 1);
            }
        }
    }
}

#[test]
fn where_decompose_has_opened_already() {
    // Without the words of the closing refresh the high part is known, and yet it is 0 in the answer.
    for n in COUNTS {
        let mut call = good(Gadget::Decompose, n, (44, 0));
        call.shares[0] = 95233;
        assert_eq!(call.told().fields, [1]);
        call.tape.truncate(call.tape.len() - (n - 1));
        check(&call, 5);
    }
}

#[test]
fn the_draws_are_refused_as_the_gadgets_are() {
    for gadget in GADGETS {
        for n in [0, 1, 9, usize::MAX] {
            assert_eq!(gadget.draws(n, gadget.good_parameters()[0]), Err(Refusal::ShareCount));
        }
    }
    assert_eq!(draws::shift(2, 0), Err(Refusal::Parameter));
    assert_eq!(draws::to_boolean(2, 32), Err(Refusal::Parameter));
    assert_eq!(draws::verdict(2, 45, 1), Err(Refusal::Parameter));
    assert_eq!(draws::verdict(1, 45, 1), Err(Refusal::ShareCount));
}

#[test]
fn refusals_have_a_number_and_a_sentence() {
    use Refusal::*;
    let all = [ShareCount, OutputLength, Parameter, Share, TapeEnded];
    assert_eq!(all.map(Refusal::number), [1, 2, 3, 4, 5]);
    let sentences: std::collections::HashSet<String> = all.iter().map(Refusal::to_string).collect();
    assert_eq!(sentences.len(), 5);
}
