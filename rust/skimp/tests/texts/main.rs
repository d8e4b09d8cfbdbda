//! The archive's compile and read-back, alone and in a chain with run: against the reference, against
//! the meaning on instructions, and against values of document 01 worked out by hand.

mod chain;
mod compile;
mod conditions;
mod most;
mod read_back;
mod worked;

use skimp_reference::Reply;

/// The archive's compile as the comparison calls it.
fn compile_call(source: &[u8], object: &mut [u8]) -> Reply {
    reply(skimp::raw::compile(source, object))
}

/// The archive's read-back as the comparison calls it.
fn read_back_call(object: &[u8], sheet: &mut [u8]) -> Reply {
    reply(skimp::raw::read_back(object, sheet))
}

/// The archive's run as `Runs` calls it.
fn run_call(object: &[u8], state: &mut [u8], output: &mut [u8], budget: u32) -> (u32, u32) {
    let reply = skimp::run(object, state, output, budget);
    (reply.number, reply.value)
}

fn reply(reply: skimp::Reply) -> Reply {
    Reply {
        number: reply.number,
        value: reply.value,
    }
}

/// What a call gives in the safe wrapper's way, spaces for tabs, or the number and the place.
fn shown(result: Result<&[u8], skimp::Refusal>) -> Result<String, (u32, u32)> {
    match result {
        Ok(text) => {
            let text = String::from_utf8(text.to_vec()).expect("letters, digits and signs");
            Ok(text.replace('\t', " "))
        }
        Err(refusal) => Err((refusal.number, refusal.place)),
    }
}
