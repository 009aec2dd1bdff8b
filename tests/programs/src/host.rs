//! What the C host `tests/host/recording.c` has to print: of the published messages, of every case of a phase, of S12, of A then B, and of nothing.

use reader::{divide, phase, range_um, work, Form, Message, Observation, Phase, Polarity};

use crate::sample::every_phase;
use crate::time;
use crate::vectors::{NEW, OLD, PUBLISHED};

fn observed(form: Form, observation: &Observation) -> String {
    let shown = match phase(form, observation) {
        Phase::Withheld => "withheld".to_string(),
        Phase::NotFinite => "not finite".to_string(),
        Phase::Cycles(cycles, polarity) => format!("{cycles:.6} {}", due(polarity)),
    };
    format!("  sid {} range_um {} rate {} phase {shown}\n", observation.sid, range_um(observation.pseudorange), observation.rate)
}

fn due(polarity: Polarity) -> String {
    match polarity {
        Polarity::Unknown => "polarity unknown".to_string(),
        Polarity::NotCorrected => "not corrected since lock".to_string(),
        Polarity::DueHalf => "due half a cycle".to_string(),
        Polarity::Undefined(code) => format!("polarity undefined {code}"),
    }
}

fn recording(stream: &[u8]) -> String {
    let division = divide(stream);
    let mut text = String::new();
    for given in &division.given {
        let message = Message::from_bytes(&stream[given.position..given.position + given.length]).expect("the division gives valid messages");
        let form = message.header.form();
        let (name, count) = (if form == Form::New { "new" } else { "old" }, message.observations.len());
        text += &format!("at {} bytes {} gap {} form {name} count {count} time {}\n", given.position, given.length, given.gap, time(message.header));
        text.extend(message.observations.iter().map(|observation| observed(form, observation)));
    }
    text + &format!("end {} gap {} summed {}\n", stream.len(), division.rest, work(stream))
}

pub fn host() -> String {
    let published = PUBLISHED.map(|(name, stream)| format!("{}\n{}", name.trim_end_matches(".bin"), recording(stream))).concat();
    let phases = format!("phases\n{}", recording(&every_phase()));
    let piped = [("S12", [b"MAC", NEW].concat()), ("A then B", [NEW, OLD].concat()), ("nothing", Vec::new())];
    published + &phases + &piped.map(|(name, stream)| format!("{name}, from standard input\n{}", recording(&stream))).concat()
}
