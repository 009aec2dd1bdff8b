//! The observations are hostile enough: the slips that people make with a phase and its polarity, and with the narrow steps of a range, are told
//! from the right reader by them.

use reader::{phase, range_um, Form, Observation, Phase, Polarity};
use streams::{observation, Random};

const SEED: u64 = 57;
const OBSERVATIONS: u64 = 4000;

/// Doubles are told apart by their bits: zero has two signs.
fn same(one: Phase, other: Phase) -> bool {
    match (one, other) {
        (Phase::Cycles(left, of), Phase::Cycles(right, by)) => left.to_bits() == right.to_bits() && of == by,
        _ => one == other,
    }
}

/// The number of observations of which this is true.
fn observations_with(differs: impl Fn(&Observation) -> bool) -> usize {
    (0..OBSERVATIONS).filter(|case| differs(&observation(&mut Random::new(SEED + case)))).count()
}

/// The number of observations of the new form that a slip shows another phase of. It is told the observation and the right phase.
fn noticed(slip: impl Fn(&Observation, Phase) -> Phase) -> usize {
    observations_with(|observation| {
        let right = phase(Form::New, observation);
        !same(slip(observation, right), right)
    })
}

fn assert_noticed(slip: &str, times: usize) {
    println!("seed {SEED}: {slip}: noticed in {times} of {OBSERVATIONS} observations");
    assert!(times >= OBSERVATIONS as usize / 100, "{slip}: noticed in {times} of {OBSERVATIONS} observations only");
}

/// A slip that changes what is said of cycles alone.
fn noticed_cycles(slip: fn(f64, Polarity) -> (f64, Polarity)) -> usize {
    noticed(|_, right| match right {
        Phase::Cycles(cycles, polarity) => {
            let (cycles, polarity) = slip(cycles, polarity);
            Phase::Cycles(cycles, polarity)
        }
        none => none,
    })
}

/// A slip that goes by code 7 before it asks what makes a phase none.
fn noticed_before(none: Phase) -> usize {
    noticed(|observation, right| match observation.condition >> 8 & 7 {
        7 if right == none => Phase::Cycles(f64::from_bits(observation.phase), Polarity::DueHalf),
        _ => right,
    })
}

/// What a range goes by where PR is taken in halves, and a slip may have otherwise.
struct Steps {
    share: u64,
    half: u64,
    divisor: u32,
    product: fn(u64) -> u64,
}

const STEPS: Steps = Steps { share: 1229, half: 7500, divisor: 1 << 16, product: |product| product };

/// The number of observations with another range by these steps.
fn noticed_ranges(steps: Steps) -> usize {
    observations_with(|observation| {
        let pseudorange = observation.pseudorange;
        let (high, low) = (u64::from(pseudorange >> 16), u64::from(pseudorange % steps.divisor));
        let product = |left, right| (steps.product)(left * right);
        let rounded = (product(8744, high) + product(steps.share, low) + steps.half) / 15_000;
        9993 * u64::from(pseudorange) + product(5369, high) + rounded != range_um(pseudorange)
    })
}

#[test]
fn the_frame_itself_is_right() {
    assert_eq!(noticed(|_, right| right), 0);
    assert_eq!(noticed_cycles(|cycles, polarity| (cycles, polarity)), 0);
    assert_eq!(noticed_ranges(STEPS), 0);
}

#[test]
fn half_a_cycle_added() {
    let slip = |cycles, polarity| if polarity == Polarity::DueHalf { (cycles + 0.5, polarity) } else { (cycles, polarity) };
    assert_noticed("half a cycle added", noticed_cycles(slip));
}

#[test]
fn due_half_taken_for_corrected() {
    let slip = |cycles, polarity| if polarity == Polarity::DueHalf { (cycles, Polarity::NotCorrected) } else { (cycles, polarity) };
    assert_noticed("due half taken for corrected", noticed_cycles(slip));
}

#[test]
fn polarity_before_finite() {
    assert_noticed("polarity before finite", noticed_before(Phase::NotFinite));
}

#[test]
fn polarity_before_the_flag() {
    assert_noticed("polarity before the flag", noticed_before(Phase::Withheld));
}

#[test]
fn the_sign_of_zero_lost() {
    assert_noticed("the sign of zero lost", noticed_cycles(|cycles, polarity| (cycles + 0.0, polarity)));
}

#[test]
fn code_six_as_known() {
    let slip = |cycles, polarity| if polarity == Polarity::Undefined(6) { (cycles, Polarity::DueHalf) } else { (cycles, polarity) };
    assert_noticed("code 6 as known", noticed_cycles(slip));
}

#[test]
fn the_undefined_code_lost() {
    let slip = |cycles, polarity| if let Polarity::Undefined(_) = polarity { (cycles, Polarity::Undefined(0)) } else { (cycles, polarity) };
    assert_noticed("the undefined code lost", noticed_cycles(slip));
}

#[test]
fn the_rounding_half_lost() {
    assert_noticed("the rounding half lost", noticed_ranges(Steps { half: 0, ..STEPS }));
}

#[test]
fn a_product_s_high_half_lost() {
    assert_noticed("a product's high half lost", noticed_ranges(Steps { product: |product| product % (1 << 16), ..STEPS }));
}

#[test]
fn a_share_one_too_low() {
    assert_noticed("1228 for 1229", noticed_ranges(Steps { share: 1228, ..STEPS }));
}

#[test]
fn the_rest_of_another_divisor() {
    assert_noticed("the rest of another divisor", noticed_ranges(Steps { divisor: (1 << 16) - 1, ..STEPS }));
}
