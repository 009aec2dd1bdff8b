//! The board's stream reader and the model side by side: the same call to both, and everything compared after it.

use crate::{board, expected, same, same_each, Lent, Verdict};

pub struct Twin {
    pub state: board::State,
    window: Lent,
    output: Lent,
    model: reader::State,
    model_window: Vec<u8>,
    model_output: Vec<u8>,
}

impl Twin {
    pub fn new(state: board::State, window: Vec<u8>, output: Vec<u8>) -> Twin {
        let board::State { held, gap, total, ended, summed } = state;
        let model = reader::State { held, gap, total, ended: ended != 0, summed };
        Twin { state, window: Lent::new(&window), output: Lent::new(&output), model, model_window: window, model_output: output }
    }

    pub fn window(&self) -> &[u8] {
        self.window.contents()
    }

    pub fn output(&self) -> &[u8] {
        self.output.contents()
    }

    pub fn feed(&mut self, piece: &[u8]) -> Verdict<board::Answer> {
        let before = self.state;
        let answer = board::feed(&mut self.state, piece, self.window.lend(), self.output.lend());
        let model = reader::feed(&mut self.model, piece, &mut self.model_window, &mut self.model_output);
        self.agree("feed", before, answer, expected::answer(model))
    }

    pub fn finish(&mut self) -> Verdict<board::Answer> {
        let before = self.state;
        let answer = board::finish(&mut self.state, self.window.lend(), self.output.lend());
        let model = reader::finish(&mut self.model, &mut self.model_window, &mut self.model_output);
        self.agree("finish", before, answer, expected::answer(model))
    }

    /// The answers, the states, both buffers to their ends and what surrounds them. A refusal leaves `ended` as the very number that it was.
    fn agree(&self, call: &str, before: board::State, answer: board::Answer, model: board::Answer) -> Verdict<board::Answer> {
        let reader::State { held, gap, total, ended, summed } = self.model;
        same(&format!("{call}: answer"), answer, model)?;
        same(&format!("{call}: held, gap, total"), (self.state.held, self.state.gap, self.state.total), (held, gap, total))?;
        same(&format!("{call}: ended"), self.state.ended != 0, ended)?;
        same(&format!("{call}: summed"), self.state.summed, summed)?;
        if answer.refusal != 0 {
            same(&format!("{call}: the state after a refusal"), self.state, before)?;
        }
        same_each(&format!("{call}: window"), self.window(), &self.model_window)?;
        same_each(&format!("{call}: output"), self.output(), &self.model_output)?;
        self.window.margins_stand("window")?;
        self.output.margins_stand("output")?;
        Ok(answer)
    }
}
