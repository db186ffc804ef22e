//! The comparison: a subject with the two exported functions, or a program that reads a job, against the second
//! program. Result integers, output bytes, and every byte that must stay as it was.

use crate::exported;
use crate::jobs::cases::Case;

/// Something with the two exported functions of the rules. `Err` says why there is no result that counts.
pub trait Exports {
    fn answers(&mut self, job: &[u8], out: &mut [u8]) -> Result<u64, String>;
    fn check(&mut self, circuit: &[u8], public: &[u8], query: &[u8]) -> Result<u64, String>;
}

/// Bytes lent to a call, with known bytes before and behind; they begin at an odd address, since nothing may
/// rely on alignment.
struct Lent {
    bytes: Vec<u8>,
    from: usize,
    to: usize,
}

const MARGIN: usize = 64;
const KNOWN: u8 = 0xA5;

impl Lent {
    fn new(content: &[u8]) -> Lent {
        let mut bytes = vec![KNOWN; content.len() + 2 * MARGIN];
        let from = MARGIN + 1 - bytes.as_ptr() as usize % 2;
        let to = from + content.len();
        bytes[from..to].copy_from_slice(content);
        Lent { bytes, from, to }
    }

    fn content(&self) -> &[u8] {
        &self.bytes[self.from..self.to]
    }

    fn content_mut(&mut self) -> &mut [u8] {
        &mut self.bytes[self.from..self.to]
    }

    /// Is everything as if `content` had been lent and nothing else been touched?
    fn is_exactly(&self, content: &[u8]) -> bool {
        let margins = [&self.bytes[..self.from], &self.bytes[self.to..]];
        self.content() == content && margins.concat().iter().all(|&byte| byte == KNOWN)
    }
}

/// Runs one case on the subject; `Err` says what differs from the second program.
pub fn compare(subject: &mut dyn Exports, case: &Case) -> Result<(), String> {
    match case {
        Case::Answers { job, out_len } => compare_answers(subject, job, *out_len),
        Case::Check { circuit, public, query } => compare_check(subject, [circuit, public, query]),
    }
}

fn compare_answers(subject: &mut dyn Exports, job: &[u8], out_len: usize) -> Result<(), String> {
    let before: Vec<u8> = (0..out_len).map(|at| 0x51 + at as u8).collect();
    let mut expected_out = before.clone();
    let expected = exported::answers(job, &mut expected_out);
    let (lent_job, mut lent_out) = (Lent::new(job), Lent::new(&before));
    let result = subject.answers(lent_job.content(), lent_out.content_mut())?;
    same_integer(result, expected)?;
    if !lent_out.is_exactly(&expected_out) {
        return Err(format!("output {:?}, expected {expected_out:?}, or bytes outside", lent_out.content()));
    }
    untouched(&lent_job, job)
}

fn compare_check(subject: &mut dyn Exports, slices: [&[u8]; 3]) -> Result<(), String> {
    let lent = slices.map(Lent::new);
    let result = subject.check(lent[0].content(), lent[1].content(), lent[2].content())?;
    same_integer(result, exported::check(slices[0], slices[1], slices[2]))?;
    lent.iter().zip(slices).try_for_each(|(lent, slice)| untouched(lent, slice))
}

fn same_integer(result: u64, expected: u64) -> Result<(), String> {
    let name = |integer| format!("number {}, place {}", integer % 256, integer / 256);
    if result == expected {
        Ok(())
    } else {
        Err(format!("{}; expected {}", name(result), name(expected)))
    }
}

fn untouched(lent: &Lent, content: &[u8]) -> Result<(), String> {
    if lent.is_exactly(content) {
        Ok(())
    } else {
        Err("an input byte, or one next to it, was changed".to_string())
    }
}

/// Counts what passes and what fails, and names the first failures.
#[derive(Default)]
pub struct Tally {
    passed: usize,
    failed: usize,
}

impl Tally {
    pub fn add(&mut self, name: &str, result: Result<(), String>) {
        match result {
            Ok(()) => self.passed += 1,
            Err(why) => {
                self.failed += 1;
                if self.failed <= 10 {
                    let start: String = why.chars().take(400).collect();
                    println!("{name}: {start}");
                }
            }
        }
    }

    /// Prints the closing line; a run that compared nothing has not passed.
    pub fn close(self) -> std::process::ExitCode {
        println!("{} passed, {} failed", self.passed, self.failed);
        if self.failed == 0 && self.passed > 0 {
            std::process::ExitCode::SUCCESS
        } else {
            std::process::ExitCode::FAILURE
        }
    }
}
