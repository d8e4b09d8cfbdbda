//! What the three calls make of a source, in the page's form.

/// More steps than any program of the page takes.
const BUDGET: u32 = 100_000;
/// Room for more numbers than any program of the page sends.
const OUTPUT_BYTES: usize = 400;
/// A state's bytes before its words, and the words of the frame that are not the object's.
const STATE_HEADER: usize = 20;
const LINK_WORDS: usize = 2;
/// The reply to a run that came to STOP.
const STOPPED: u32 = 20;

/// The object and the sheet, with spaces for tabs and `;` for ends of lines, and the line of what
/// the run sends or of the refusal.
#[derive(Clone, Debug, PartialEq, Eq)]
pub struct Made {
    pub object: Option<String>,
    pub sheet: Option<String>,
    pub reply: String,
}

impl Made {
    pub fn of(source: &str) -> Made {
        Made::accepted(source).unwrap_or_else(|refusal| Made {
            object: None,
            sheet: None,
            reply: format!("refused {} at {}", refusal.number, refusal.place),
        })
    }

    fn accepted(source: &str) -> Result<Made, skimp::Refusal> {
        let mut object = vec![0; skimp::OBJECT_MOST];
        let mut sheet = vec![0; skimp::SHEET_MOST];
        let object = skimp::compile(source.as_bytes(), &mut object)?;
        let sheet = skimp::read_back(object, &mut sheet)?;
        Ok(Made {
            object: Some(on_one_line(object)),
            sheet: Some(on_one_line(sheet)),
            reply: run(object),
        })
    }
}

/// A text of tabs and newlines as the page shows it.
fn on_one_line(text: &[u8]) -> String {
    let text = String::from_utf8(text.to_vec()).expect("letters, digits and signs");
    let text = text.strip_suffix('\n').expect("a newline at the end");
    text.replace('\t', " ").replace('\n', "; ")
}

/// Runs an object from a state of zero bytes.
fn run(object: &[u8]) -> String {
    let mut state = vec![0; STATE_HEADER + 4 * words(object)];
    let mut output = vec![0; OUTPUT_BYTES];
    let reply = skimp::run(object, &mut state, &mut output, BUDGET);
    let ending = match reply.number {
        0 => "not ended".to_string(),
        fault @ 1..=4 => format!("fault {fault}"),
        STOPPED => "stopped".to_string(),
        number => panic!("run replies {number} to an object that compile made"),
    };
    let count = u64::from_be_bytes(state[8..16].try_into().expect("eight bytes"));
    let sent = numbers(&output[..4 * count as usize]);
    let steps = reply.value;
    let plural = if steps == 1 { "" } else { "s" };
    format!("sends {sent} in {steps} step{plural}, {ending}")
}

/// The words of an object's frame: its header has V and T.
fn words(object: &[u8]) -> usize {
    let text = String::from_utf8_lossy(object);
    let header = text.lines().next().expect("a header");
    let number = |field: &str| field.parse::<usize>().expect("a number");
    let frame: usize = header.split('\t').skip(1).take(2).map(number).sum();
    LINK_WORDS + frame
}

/// The words that were sent.
fn numbers(output: &[u8]) -> String {
    let word = |bytes: &[u8]| i32::from_be_bytes(bytes.try_into().expect("four bytes")).to_string();
    let words: Vec<String> = output.chunks(4).map(word).collect();
    match words.is_empty() {
        true => "nothing".to_string(),
        false => words.join(", "),
    }
}
