//! One call of run, by the archive and by the reference.

/// What a call is given.
#[derive(Clone)]
pub struct Call {
    pub object: Vec<u8>,
    pub state: Vec<u8>,
    pub output: Vec<u8>,
    pub budget: u32,
}

/// What a call leaves.
#[derive(Clone, Debug, PartialEq, Eq)]
pub struct Outcome {
    pub number: u32,
    pub value: u32,
    pub state: Vec<u8>,
    pub output: Vec<u8>,
}

/// Numbers that a run replies with where the call is refused.
pub const REFUSALS: std::ops::RangeInclusive<u32> = 21..=26;

/// Bytes around each buffer that is lent, which the archive must leave alone. The odd length
/// leaves the buffers at odd addresses.
const MARGIN: usize = 13;
const MARGIN_BYTE: u8 = 0xA5;

fn with_margins(bytes: &[u8]) -> Vec<u8> {
    let margin = [MARGIN_BYTE; MARGIN];
    [&margin, bytes, &margin].concat()
}

/// The bytes between the margins, which must be whole.
fn without_margins(buffer: &[u8]) -> Vec<u8> {
    let (front, rest) = buffer.split_at(MARGIN);
    let (bytes, back) = rest.split_at(rest.len() - MARGIN);
    let whole = |margin: &[u8]| margin.iter().all(|&byte| byte == MARGIN_BYTE);
    assert!(whole(front), "the archive wrote before a buffer");
    assert!(whole(back), "the archive wrote behind a buffer");
    bytes.to_vec()
}

impl Call {
    /// What the archive does.
    pub fn archive(&self) -> Outcome {
        let object = self.object.clone();
        let mut state = with_margins(&self.state);
        let mut output = with_margins(&self.output);
        let reply = skimp::run(
            &object,
            &mut state[MARGIN..][..self.state.len()],
            &mut output[MARGIN..][..self.output.len()],
            self.budget,
        );
        assert!(object == self.object, "the archive wrote to the object");
        Outcome {
            number: reply.number,
            value: reply.value,
            state: without_margins(&state),
            output: without_margins(&output),
        }
    }

    /// What the reference does.
    fn reference(&self) -> Outcome {
        let (mut state, mut output) = (self.state.clone(), self.output.clone());
        let reply = skimp_reference::run(&self.object, &mut state, &mut output, self.budget);
        Outcome {
            number: reply.number,
            value: reply.value,
            state,
            output,
        }
    }

    /// What both do, which must be the same. A refused call must change nothing.
    pub fn outcome(&self, source: &str) -> Outcome {
        let (got, wanted) = (self.archive(), self.reference());
        if got != wanted {
            panic!(
                "{source}: the archive and the reference differ\nbudget {}\nstate {:?}\n{} bytes \
                 of output\narchive   {}\nreference {}\nobject:\n{}",
                self.budget,
                self.state,
                self.output.len(),
                got.show(),
                wanted.show(),
                String::from_utf8_lossy(&self.object)
            );
        }
        if REFUSALS.contains(&got.number) {
            assert!(got.state == self.state, "{source}: a refusal wrote state");
            assert!(
                got.output == self.output,
                "{source}: a refusal wrote output"
            );
        }
        got
    }
}

impl Outcome {
    fn show(&self) -> String {
        let output = &self.output[..self.output.len().min(80)];
        format!(
            "number {} value {} state {:?} output {output:?}",
            self.number, self.value, self.state
        )
    }
}
