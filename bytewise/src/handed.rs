//! A job as it is handed on, read twice: by the scope, from the truth of the record with which it was opened, and by the
//! contracts. Where each call got that record, the words as left and the job as handed back, both must say the same. Elsewhere
//! (an older job, another record of the same length, other words) the contracts' reading answers, within what the scope says.

use crate::contract;
use crate::job::{self, Answer, Chunk, State, Step};
use crate::rules::width;

#[derive(Clone)]
pub struct Handed {
    by_scope: job::Job,
    by_contract: contract::Job,
    /// The words as the job's last accepted call left them; none once one was lent another record or other words.
    left: Option<Vec<u64>>,
}

pub fn closed() -> Handed {
    handed(job::closed(), &[])
}

fn handed(by_scope: job::Job, words: &[u64]) -> Handed {
    let spans = by_scope.chunks.iter().map(|c| (c.from, c.to));
    let by_contract = contract::opened(by_scope.n, by_scope.size, by_scope.levels, by_scope.state, spans);
    Handed { by_scope, by_contract, left: Some(words.to_vec()) }
}

pub fn open(record: &[u8], words: &[u64], levels: usize, cuts: &[usize]) -> (Answer, Handed) {
    let (answer, job) = job::open(record, words.len(), levels, cuts);
    (answer, handed(job, words))
}

/// Whether a step on a chunk may write this word: scan quotes and mask, settle the mask, level colons and commas.
fn may_write(step: Step, chunk: &Chunk, n: usize, at: usize) -> bool {
    let (row, byte) = (at / width(n), at % width(n) * 64);
    let bitmap = match step {
        Step::Scan => row < 2,
        Step::Settle => row == 1,
        Step::Level => row >= 2,
    };
    bitmap && chunk.from <= byte && byte < chunk.to
}

impl Handed {
    pub fn chunks(&self) -> &[Chunk] {
        &self.by_scope.chunks
    }

    pub fn state(&self) -> State {
        self.by_scope.state
    }

    fn is_ordinary(&self, record: &[u8], words: &[u64]) -> bool {
        self.by_scope.record == record && self.left.as_deref() == Some(words)
    }

    pub fn step(&mut self, step: Step, record: &[u8], words: &mut [u64], k: usize, guess: bool) -> Answer {
        let before = words.to_vec();
        let mut modelled = words.to_vec();
        let model = self.by_contract.step(step, record, &mut modelled, k, guess);
        if let Some(refusal) = self.by_scope.step_refusal(step, record.len(), words.len(), k) {
            assert_eq!((refusal, &before), (model, &modelled), "a refused step: scope and contract");
            return refusal;
        }
        let answer = if self.is_ordinary(record, words) {
            let answer = self.by_scope.step(step, words, k, guess);
            assert_eq!((answer, &*words), (model, &modelled[..]), "a step: scope and contract");
            self.left = Some(modelled);
            answer
        } else {
            self.by_scope.mark(step, k, model);
            words.copy_from_slice(&modelled);
            self.left = None;
            model
        };
        let chunk = &self.by_scope.chunks[k];
        let kept = (0..words.len()).all(|at| words[at] == before[at] || may_write(step, chunk, record.len(), at));
        assert!(kept, "a step wrote a word that is not its own");
        assert!(answer.0 == 0 || (step == Step::Settle && (13..=16).contains(&answer.0)), "an accepted step answers {answer:?}");
        answer
    }

    /// What close answers is fixed by the steps had and the state, so the scope's reading holds for every job.
    pub fn close(&mut self, record: &[u8], words: &mut [u64]) -> Answer {
        let mut modelled = words.to_vec();
        let model = self.by_contract.close(record, &mut modelled);
        let answer = self.by_scope.close(record.len(), words);
        assert_eq!((answer, &*words), (model, &modelled[..]), "close: scope and contract");
        answer
    }

    pub fn ask(&self, k: usize) -> (u64, usize, usize) {
        let asked = self.by_scope.ask(k);
        assert_eq!(asked, self.by_contract.ask(k), "asking: scope and contract");
        asked
    }
}
