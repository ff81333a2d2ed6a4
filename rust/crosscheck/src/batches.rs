//! A call for many codewords held against the library's own call for one: each part
//! is as that call leaves it, and the answer follows from its answers.

use crate::answer::Answer;
use crate::cabinet::Cabinet;
use crate::calls::batch::{interleaved, most, part, zeros, Batch, MANY};
use crate::crosscheck::Crosscheck;
use crate::field::Symbol;
use crate::inputs::Inputs;

/// Puts a call to the library, and to the second program too where that takes no
/// long time, and claims this of its answer. The buffers must be as long as the layout and
/// the number of codewords say, whatever else is wrong with the inputs.
pub fn compare(all: &mut Crosscheck, batch: &Batch, cabinet: &Cabinet, inputs: &Inputs) -> Answer {
    let many = inputs.wide(MANY);
    let answer = match many <= most(cabinet) as u64 {
        true => all.run.compare(batch.many, inputs),
        false => (batch.many.library)(inputs),
    };
    let like = (batch.one.example)(&mut all.source, cabinet);
    let of_zeros = (batch.one.library)(&zeros(&like, inputs));
    let of_part = |q| (batch.one.library)(&part(inputs, q));
    let parts: Vec<Answer> = (0..many as usize).map(of_part).collect();
    let holds = follows(batch, many, &answer, &of_zeros, &parts);
    all.run.claim(holds && answer.spoilt.is_empty(), || {
        format!("{} part by part: {inputs}: {answer}", batch.many.name)
    });
    answer
}

/// Whether an answer for many codewords follows from those for the parts and for zeros.
fn follows(batch: &Batch, many: u64, answer: &Answer, of_zeros: &Answer, parts: &[Answer]) -> bool {
    let all = parts.iter().chain([of_zeros]);
    let grounds = all.map(|one| one.refusal).filter(|&refusal| refusal > 0);
    let refusal = grounds.min().unwrap_or(0);
    if refusal > 0 {
        let nothing = answer.unwritten() && answer.numbers.iter().all(|&number| number == 0);
        return answer.refusal == refusal && nothing;
    }
    let written = of_zeros.any_symbols().map(|of_zeros| {
        let parts: Vec<&[Symbol]> = parts.iter().map(Answer::symbols).collect();
        interleaved(of_zeros.len(), &parts)
    });
    answer.refusal == 0
        && answer.numbers == (batch.numbers)(many, of_zeros, parts)
        && answer.any_symbols() == written.as_deref()
}
