//! Requests written by the compiled client and by the reference into the same buffer: what they
//! say, every byte of the buffer, and which refusals were reached.

use crate::ask::OPCODES;
use crate::client_asked::{refusals_of, Asked};
use crate::client_program::Program;
use crate::run::Outcomes;
use razidkot_client::raw::Request;

/// Bytes behind the buffer that are never lent, to see that nothing is written there.
const GUARD: usize = 64;

/// What both say, or where they differ; the buffer is all of this byte before.
fn write(asked: &Asked, length: usize, byte: u8) -> Result<Request, String> {
    let written = |program: Program| {
        let mut buffer = vec![byte; length + GUARD];
        let said = program.write(asked, &mut buffer[..length]);
        (said, buffer)
    };
    let [(proved, buffer), (expected, expected_buffer)] = Program::BOTH.map(written);
    if proved != expected {
        return Err(format!("{proved:?}, expected {expected:?}"));
    }
    if buffer != expected_buffer {
        let mut bytes = buffer.iter().zip(&expected_buffer);
        let place = bytes.position(|(byte, other)| byte != other);
        return Err(format!("the buffer, first at byte {place:?}"));
    }
    Ok(expected)
}

/// What a run of requests reached.
#[derive(Debug, Default)]
pub struct Written {
    calls: u64,
    outcomes: Outcomes,
}

impl Written {
    /// Has both write the request; panics with the simplest that they differ on.
    pub fn compare(&mut self, asked: &Asked, length: usize) -> Request {
        self.calls += 1;
        let byte = self.calls as u8;
        match write(asked, length, byte) {
            Ok(said) => {
                self.count(asked, length, said.code);
                said
            }
            Err(_) => panic!("{}", show(asked, length, byte)),
        }
    }

    /// The refusal, and each later one that would apply as well.
    fn count(&mut self, asked: &Asked, length: usize, code: u32) {
        let opcode = asked.opcode;
        if code == 0 {
            self.outcomes.count(written_by(opcode, asked.named));
            return;
        }
        self.outcomes.count(refused(opcode, code));
        let applying = asked.applying(length).into_iter();
        for later in applying.skip_while(|&refusal| refusal != code).skip(1) {
            self.outcomes.count(refused_before(opcode, code, later));
        }
    }

    /// Every operation was written, and refused with each refusal and each order of two.
    pub fn assert_all(&self, least: u64) {
        for opcode in OPCODES {
            let refusals = refusals_of(opcode);
            let pairs = refusals.iter().enumerate().flat_map(|(place, &first)| {
                let later = refusals[place + 1..].iter();
                later.map(move |&later| refused_before(opcode, first, later))
            });
            let mut expected: Vec<_> = pairs.collect();
            expected.extend(refusals.iter().map(|&code| refused(opcode, code)));
            expected.extend([true, false].map(|named| written_by(opcode, named)));
            self.outcomes.assert_often(&expected, least);
        }
    }
}

fn written_by(opcode: u16, named: bool) -> String {
    format!("opcode {opcode} written, named {named}")
}

fn refused(opcode: u16, code: u32) -> String {
    format!("opcode {opcode} refused with {code}")
}

fn refused_before(opcode: u16, code: u32, later: u32) -> String {
    format!("opcode {opcode} refused with {code} before {later}")
}

fn show(asked: &Asked, length: usize, byte: u8) -> String {
    let mut asked = asked.clone();
    let fails = |asked: &Asked| write(asked, length, byte).is_err();
    while let Some(shorter) = asked.shorter().into_iter().find(fails) {
        asked = shorter;
    }
    let difference = write(&asked, length, byte).expect_err("shrinking keeps it");
    format!("{difference}: {asked:02X?} into {length} bytes")
}
