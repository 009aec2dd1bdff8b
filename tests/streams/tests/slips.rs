//! The streams are hostile enough: readers with the slips that people make are told from the right one by them. A slip that went unnoticed here would
//! go unnoticed behind the C boundary too.

use reader::{check, checksum, divide, feed, finish, message_at, read_header, read_observation, reasons, work};
use reader::{Answer, Form, Head, Observation, Reason, Refusal, State, LONGEST};
use streams::{cuts, stream, Random};

const SEED: u64 = 20_041;
const STREAMS: u64 = 4000;

/// The messages that a reader gives: gap and length of each, and the gap at the end.
type Given = (Vec<(usize, usize)>, usize);

/// The length that the start at this position claims, if all of it is there.
fn claim(from: &[u8]) -> Option<usize> {
    let form = Form::BOTH.into_iter().find(|form| from.starts_with(&form.sync()))?;
    let length = form.length(*from.get(form.count_place())?);
    (length <= from.len()).then_some(length)
}

/// A division in which `valid` decides about a whole claim and `step` how far to go on where no message stands.
fn divide_with(stream: &[u8], mut valid: impl FnMut(&[u8]) -> bool, step: fn(&[u8]) -> usize) -> Given {
    let (mut given, mut gap, mut position) = (Vec::new(), 0, 0);
    while position < stream.len() {
        let from = &stream[position..];
        match claim(from).filter(|&length| valid(&from[..length])) {
            Some(length) => {
                given.push((gap, length));
                gap = 0;
                position += length;
            }
            None => {
                let far = step(from).min(from.len());
                gap += far;
                position += far;
            }
        }
    }
    (given, gap)
}

fn right(stream: &[u8]) -> Given {
    let division = divide(stream);
    (division.given.iter().map(|given| (given.gap, given.length)).collect(), division.rest)
}

fn valid(whole: &[u8]) -> bool {
    check(whole).is_ok()
}

fn one(_: &[u8]) -> usize {
    1
}

fn starts(from: &[u8]) -> bool {
    Form::BOTH.iter().any(|form| from.starts_with(&form.sync()))
}

/// The number of streams, each in pieces, of which this is true.
fn streams_with(differs: impl Fn(&[u8], &[usize]) -> bool) -> usize {
    (0..STREAMS)
        .filter(|case| {
            let mut random = Random::new(SEED + case);
            let stream = stream(&mut random);
            let pieces = cuts(&mut random, stream.len());
            differs(&stream, &pieces)
        })
        .count()
}

/// The number of streams on which a reader differs from the division.
fn noticed(reader: impl Fn(&[u8], &[usize]) -> Given) -> usize {
    streams_with(|stream, pieces| reader(stream, pieces) != right(stream))
}

fn assert_noticed(slip: &str, times: usize) {
    println!("seed {SEED}: {slip}: noticed in {times} of {STREAMS} streams");
    assert!(times >= STREAMS as usize / 100, "{slip}: noticed in {times} of {STREAMS} streams only");
}

#[test]
fn the_frame_itself_is_right() {
    assert_eq!(noticed(|stream, _| divide_with(stream, valid, one)), 0);
}

#[test]
fn going_on_behind_the_claim_after_a_bad_checksum() {
    let step = |from: &[u8]| claim(from).unwrap_or(1);
    assert_noticed("going on behind the claimed length", noticed(|stream, _| divide_with(stream, valid, step)));
}

#[test]
fn skipping_the_sync_letters_after_a_false_start() {
    let step = |from: &[u8]| if starts(from) { 4 } else { 1 };
    assert_noticed("skipping the sync letters", noticed(|stream, _| divide_with(stream, valid, step)));
}

#[test]
fn skipping_the_letter_at_which_a_start_breaks_off() {
    let step = |from: &[u8]| if !starts(from) && from.starts_with(b"MA") { 3 } else { 1 };
    assert_noticed("skipping a broken start", noticed(|stream, _| divide_with(stream, valid, step)));
}

#[test]
fn counting_the_sync_into_the_checksum() {
    let counts = |whole: &[u8]| checksum(whole) == 0;
    assert_noticed("counting the sync", noticed(|stream, _| divide_with(stream, counts, one)));
}

#[test]
fn leaving_version_out_of_the_checksum() {
    let leaves = |whole: &[u8]| checksum(&whole[5..]) == 0;
    assert_noticed("leaving out byte 5", noticed(|stream, _| divide_with(stream, leaves, one)));
}

#[test]
fn looking_at_the_old_sync_alone() {
    let old = |whole: &[u8]| check(whole) == Ok(Form::Old);
    assert_noticed("knowing the old form alone", noticed(|stream, _| divide_with(stream, old, one)));
}

/// Runs the model over the pieces; `between` may do harm after each piece. Answers the bytes summed, too.
fn run(stream: &[u8], pieces: &[usize], between: impl Fn(&mut State, &mut [u8])) -> (Given, u64) {
    let (mut state, mut window, mut output) = (State::default(), vec![0; LONGEST], vec![0; LONGEST]);
    let (mut given, mut left) = (Vec::new(), stream);
    for &length in pieces {
        let (mut piece, later) = left.split_at(length);
        left = later;
        while let Ok(Answer::Message { length, gap, taken }) = feed(&mut state, piece, &mut window, &mut output) {
            given.push((gap as usize, length));
            piece = &piece[taken..];
        }
        between(&mut state, &mut window);
    }
    loop {
        match finish(&mut state, &mut window, &mut output) {
            Ok(Answer::Message { length, gap, .. }) => given.push((gap as usize, length)),
            Ok(Answer::End { gap }) => return ((given, gap as usize), state.summed),
            other => panic!("finishing answers {other:?}"),
        }
    }
}

#[test]
fn the_model_gives_the_division() {
    assert_eq!(noticed(|stream, pieces| run(stream, pieces, |_, _| ()).0), 0);
}

#[test]
fn settling_an_unfinished_message_because_a_piece_ended() {
    let settle = |state: &mut State, window: &mut [u8]| {
        state.gap += std::mem::take(&mut state.held);
        window.fill(0);
    };
    assert_noticed("settling at a piece's end", noticed(|stream, pieces| run(stream, pieces, settle).0));
}

#[test]
fn losing_the_gap_between_calls() {
    assert_noticed("losing the gap", noticed(|stream, pieces| run(stream, pieces, |state, _| state.gap = 0).0));
}

#[test]
fn losing_the_last_held_byte() {
    let lose = |state: &mut State, window: &mut [u8]| {
        if state.held > 0 {
            state.held -= 1;
            window[state.held as usize] = 0;
        }
    };
    assert_noticed("losing a held byte", noticed(|stream, pieces| run(stream, pieces, lose).0));
}

/// The number of streams in which a slip changes the reason of some position. It is told the bytes from there on and the right reason.
fn noticed_reason(slip: fn(&[u8], Reason) -> Reason) -> usize {
    streams_with(|stream, _| reasons(stream).into_iter().enumerate().any(|(position, reason)| slip(&stream[position..], reason) != reason))
}

#[test]
fn a_message_inside_a_given_one_as_given() {
    let slip = |from: &[u8], reason| message_at(from, 0).map_or(reason, Reason::Given);
    assert_noticed("given before inside", noticed_reason(slip));
}

#[test]
fn a_start_that_the_end_breaks_off_as_a_wrong_sync() {
    let slip = |from: &[u8], reason| if reason == Reason::CutUnknown && from.len() < 4 { Reason::Sync(from.len() + 1) } else { reason };
    assert_noticed("MA at the end as a wrong sync", noticed_reason(slip));
}

#[test]
fn a_missing_count_byte_as_no_missing_byte() {
    let slip = |_: &[u8], reason| if reason == Reason::CutUnknown { Reason::CutShort(0) } else { reason };
    assert_noticed("short by none where nobody knows", noticed_reason(slip));
}

#[test]
fn the_bytes_that_are_missing_off_by_one() {
    let slip = |_: &[u8], reason| if let Reason::CutShort(missing) = reason { Reason::CutShort(missing - 1) } else { reason };
    assert_noticed("short by one less", noticed_reason(slip));
}

#[test]
fn the_residue_without_the_checksum_byte() {
    let slip = |from: &[u8], reason| match (reason, claim(from)) {
        (Reason::Checksum(_), Some(length)) => Reason::Checksum(checksum(&from[4..length - 1])),
        _ => reason,
    };
    assert_noticed("the residue without the checksum byte", noticed_reason(slip));
}

/// The number of streams of which a reader counts other bytes summed than the division makes it.
fn noticed_count(summed: impl Fn(&[u8], &[usize]) -> u64) -> usize {
    streams_with(|stream, pieces| summed(stream, pieces) != work(stream))
}

/// A count over the division. `tested` makes the next of the one so far, the length of a message that is all there, and whether it is given.
fn count_with(stream: &[u8], tested: fn(u64, u64, bool) -> u64) -> u64 {
    let mut summed = 0;
    let counting = |whole: &[u8]| {
        let given = valid(whole);
        summed = tested(summed, whole.len() as u64, given);
        given
    };
    divide_with(stream, counting, one);
    summed
}

#[test]
fn the_count_itself_is_right() {
    assert_eq!(noticed_count(|stream, _| count_with(stream, |summed, length, _| summed + length - 5)), 0);
    assert_eq!(noticed_count(|stream, pieces| run(stream, pieces, |_, _| ()).1), 0);
}

#[test]
fn counting_anew_after_a_message() {
    let tested = |summed, length, given| if given { 0 } else { summed + length - 5 };
    assert_noticed("counting anew after a message", noticed_count(|stream, _| count_with(stream, tested)));
}

#[test]
fn counting_the_checksum_itself() {
    let tested = |summed, length, _| summed + length - 4;
    assert_noticed("counting the checksum itself", noticed_count(|stream, _| count_with(stream, tested)));
}

#[test]
fn leaving_the_message_out_of_the_count() {
    let tested = |summed, length, given| if given { summed } else { summed + length - 5 };
    assert_noticed("leaving the message out of the count", noticed_count(|stream, _| count_with(stream, tested)));
}

#[test]
fn leaving_failed_tests_out_of_the_count() {
    let tested = |summed, length, given| if given { summed + length - 5 } else { summed };
    assert_noticed("leaving failed tests out of the count", noticed_count(|stream, _| count_with(stream, tested)));
}

/// Every gap byte since the last message once more, when the next piece comes.
#[test]
fn testing_a_position_again_after_a_cut() {
    let again = |stream: &[u8], state: &mut State| {
        let open = (state.total - state.held) as usize;
        let seen = &stream[..state.total as usize];
        let tested = (open - state.gap as usize..open).filter_map(|position| claim(&seen[position..]));
        state.summed += tested.map(|length| length as u64 - 5).sum::<u64>();
    };
    let times = noticed_count(|stream, pieces| run(stream, pieces, |state, _| again(stream, state)).1);
    assert_noticed("testing a position again after a cut", times);
}

/// As far as it goes, and from its beginning when the next piece comes.
#[test]
fn summing_an_unfinished_message() {
    let sum = |state: &mut State, window: &mut [u8]| {
        if starts(&window[..state.held as usize]) {
            state.summed += state.held - 4;
        }
    };
    assert_noticed("summing an unfinished message", noticed_count(|stream, pieces| run(stream, pieces, sum).1));
}

/// What the starts of a stream claim, where all of it is there: messages, and what a wrong checksum alone tells from them.
fn claims(stream: &[u8]) -> impl Iterator<Item = &[u8]> {
    (0..stream.len()).filter_map(|position| claim(&stream[position..]).map(|length| &stream[position..position + length]))
}

/// The number of observations that a claim's length has room for.
fn room(whole: &[u8]) -> usize {
    (whole.len() - 15) / 24
}

/// The same bytes with a right checksum: what a reader that does not check takes them for.
fn sealed(whole: &[u8]) -> Vec<u8> {
    let covered = &whole[..whole.len() - 1];
    [covered, &[checksum(&covered[4..])]].concat()
}

/// The number of streams in which a slip reads the header of a claim otherwise.
fn noticed_header(slip: fn(&[u8]) -> Result<Head, Refusal>) -> usize {
    streams_with(|stream, _| claims(stream).any(|whole| slip(whole) != read_header(whole)))
}

/// The number of streams in which a slip reads an observation of a claim otherwise, or the first index that has none.
fn noticed_observation(slip: impl Fn(&[u8], usize) -> Result<Observation, Refusal>) -> usize {
    let differs = |whole: &[u8]| (0..=room(whole)).any(|index| slip(whole, index) != read_observation(whole, index));
    streams_with(|stream, _| claims(stream).any(differs))
}

#[test]
fn reading_without_a_check() {
    assert_noticed("a header without a check", noticed_header(|whole| read_header(&sealed(whole))));
    assert_noticed("an observation without a check", noticed_observation(|whole, index| read_observation(&sealed(whole), index)));
}

#[test]
fn the_count_at_the_place_of_the_other_form() {
    let slip = |whole: &[u8]| {
        let head = read_header(whole)?;
        let other = if head.header.form() == Form::Old { Form::New } else { Form::Old };
        Ok(Head { count: whole[other.count_place()], ..head })
    };
    assert_noticed("the count at the other form's place", noticed_header(slip));
}

#[test]
fn the_index_before_the_checksum() {
    let slip = |whole: &[u8], index| if index >= room(whole) { Err(5) } else { read_observation(whole, index) };
    assert_noticed("5 before 4", noticed_observation(slip));
}

/// The number of streams in which a reader is noticed that answers zeros, and not 5, of the indexes that it takes.
fn noticed_index(takes: fn(usize) -> bool) -> usize {
    noticed_observation(|whole, index| match read_observation(whole, index) {
        Err(5) if takes(index) => Ok(Observation::default()),
        answer => answer,
    })
}

#[test]
fn an_index_equal_to_the_count() {
    assert_noticed("an index equal to the count", noticed_index(|index| index > 0));
}

/// As reading was before E5.
#[test]
fn the_first_index_of_a_message_without_observations() {
    assert_noticed("index 0 of a message without observations", noticed_index(|index| index == 0));
}

#[test]
fn the_observation_behind_the_one_asked_for() {
    let slip = |whole: &[u8], index| read_observation(whole, if index + 1 < room(whole) { index + 1 } else { index });
    assert_noticed("the observation one further", noticed_observation(slip));
}
