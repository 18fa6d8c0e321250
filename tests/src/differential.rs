//! Makes the calls of a case to the compiled service and to the reference, and compares all that
//! they say and leave: document 01, "When a call is not taken" and "A whole stream under the rules";
//! document 02, "Surviving a power cut".

use crate::case::{Case, FaultyCall};
use crate::lent::{Lengths, Lent};
use crate::reached::Reached;
use razidkot::raw::Answer;

/// The same memory twice, lent to the one and to the other.
struct Both {
    proved: Lent,
    reference: Lent,
    /// What the memory was before the last call.
    before: Lent,
}

impl Both {
    fn new(lent: Lent) -> Both {
        Both {
            proved: lent.clone(),
            reference: lent.clone(),
            before: lent,
        }
    }

    /// One call of each, with fresh buffers.
    fn call(
        &mut self,
        chunk: &[u8],
        lengths: Lengths,
        reached: &mut Reached,
    ) -> Result<Answer, String> {
        let byte = reached.calls as u8;
        self.proved.renew_buffers(lengths, byte);
        self.reference.renew_buffers(lengths, byte);
        self.before.clone_from(&self.reference);
        let proved = self.proved.call_proved(chunk);
        let expected = self.reference.call_reference(chunk);
        reached.count(&self.before, chunk, expected, &self.reference);
        if proved != expected {
            return Err(format!("{proved:?}, expected {expected:?}"));
        }
        match self.proved.difference(&self.reference) {
            Some(difference) => Err(format!("{difference} after {expected:?}")),
            None => Ok(expected),
        }
    }

    /// The call that the faults make of this one, on copies of the memory.
    fn call_with_faults(
        &self,
        call: &FaultyCall,
        chunk: &[u8],
        mut lengths: Lengths,
        reached: &mut Reached,
    ) -> Result<Answer, String> {
        let mut lent = self.reference.clone();
        let mut chunk = chunk.to_vec();
        for fault in &call.faults {
            fault.apply(&mut lent, &mut chunk, &mut lengths);
        }
        Both::new(lent).call(&chunk, lengths, reached)
    }
}

/// Makes the case's calls, up to the end of its stream or to a call that is refused; or says where
/// the two first differ.
pub fn run(case: &Case, reached: &mut Reached) -> Result<(), String> {
    let stream = case.requests.concat();
    let mut both = Both::new(case.lent());
    let mut sizes = case.sizes.iter().copied().cycle();
    let (mut at, mut rest) = (0, 0);
    for number in 0.. {
        let size = match rest {
            0 => sizes.next().unwrap_or(1),
            _ if case.rests_alone => rest,
            _ => sizes.next().unwrap_or(1).max(1),
        };
        let chunk = &stream[at..stream.len().min(at + size)];
        for faulty in case.faults.iter().filter(|call| call.number == number) {
            both.call_with_faults(faulty, chunk, case.lengths, reached)?;
        }
        let answer = both.call(chunk, case.lengths, reached)?;
        at += answer.taken;
        rest = chunk.len() - answer.taken;
        if answer.code != 0 || at == stream.len() {
            break;
        }
    }
    Ok(())
}

/// The case of a seed; a failing one is shown as short as it could be made.
pub fn run_seed(seed: u64, reached: &mut Reached) -> Result<(), String> {
    let case = Case::generate(seed);
    run(&case, reached).map_err(|_| show(seed, &shrink(case)))
}

fn shrink(mut case: Case) -> Case {
    let fails = |case: &Case| run(case, &mut Reached::default()).is_err();
    while let Some(shorter) = case.shorter().into_iter().find(fails) {
        case = shorter;
    }
    case
}

/// Only the beginning of long requests; the seed gives all.
fn show(seed: u64, case: &Case) -> String {
    let difference = run(case, &mut Reached::default()).expect_err("shrinking keeps it");
    let mut lines = vec![format!("seed {seed}: {difference}")];
    for request in &case.requests {
        let shown = &request[..request.len().min(80)];
        lines.push(format!("request of {} bytes {shown:02X?}", request.len()));
    }
    lines.push(format!(
        "chunks of {:?}, rests alone {}",
        case.sizes, case.rests_alone
    ));
    let list = &case.list[..case.list.len().min(80)];
    lines.push(format!("list of {} bytes {list:02X?}", case.list.len()));
    lines.push(format!("connection {:02X?}", &case.connection[..40]));
    lines.push(format!("{:?}", case.counters));
    lines.push(format!("{:?}", case.lengths));
    lines.push(format!("{:?}", case.faults));
    lines.join("\n")
}
