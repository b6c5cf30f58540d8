//! A child process that runs the Rust, image after image; when endless recursion ends it, another takes its place.
//!
//! The program that asks starts itself again with the argument `WORKER` and hands over to `serve`. A question is four
//! words (image words, name bytes, 1 if accented names are guarded, most looks into maps), the image, the names; an
//! answer is the outcome's number and, for tables, slots, bindings, table words and the tables. Words are little-endian.

use crate::run::{Outcome, Tables, run};
use crate::screen::Accents;
use std::io::{self, Read, Write};
use std::process::{Child, ChildStdin, ChildStdout, Command, Stdio};

pub const WORKER: &str = "--run-the-rust";

/// Enough for the deepest recursion of an image that is done.
const STACK: usize = 256 << 20;
/// No run takes longer than so many seconds.
const MOST_SECONDS: u32 = 30;

unsafe extern "C" {
    fn alarm(seconds: u32) -> u32;
}

fn read_words(from: &mut impl Read, count: usize) -> io::Result<Vec<u32>> {
    let mut bytes = vec![0; 4 * count];
    from.read_exact(&mut bytes)?;
    Ok(bytes.chunks(4).map(|word| u32::from_le_bytes(word.try_into().expect("four bytes"))).collect())
}

fn push_words(out: &mut Vec<u8>, words: &[u32]) {
    out.extend(words.iter().flat_map(|word| word.to_le_bytes()));
}

/// Answers questions until the input ends.
pub fn serve() {
    std::panic::set_hook(Box::new(|_| {}));
    let serve = || {
        let (mut input, mut output) = (io::stdin().lock(), io::stdout().lock());
        while let Ok(head) = read_words(&mut input, 4) {
            // SAFETY: asks for a signal, which ends this process.
            unsafe { alarm(MOST_SECONDS) };
            let words = read_words(&mut input, head[0] as usize).expect("a whole image");
            let mut names = vec![0; head[1] as usize];
            input.read_exact(&mut names).expect("all name bytes");
            let accents = if head[2] == 1 { Accents::Guarded } else { Accents::Kept };
            let mut answer = vec![];
            match run(&words, &names, accents, head[3] as u64) {
                Outcome::Done(tables) => {
                    push_words(&mut answer, &[0, tables.slots, tables.bindings, tables.words.len() as u32]);
                    push_words(&mut answer, &tables.words);
                }
                Outcome::NoOperand => push_words(&mut answer, &[1]),
                Outcome::Cycle => push_words(&mut answer, &[2]),
                Outcome::EndlessCycle => push_words(&mut answer, &[3]),
                Outcome::Panic => push_words(&mut answer, &[4]),
                Outcome::NotText => push_words(&mut answer, &[5]),
                Outcome::NoEnd => push_words(&mut answer, &[6]),
            }
            // SAFETY: no signal any more.
            unsafe { alarm(0) };
            output.write_all(&answer).and_then(|()| output.flush()).expect("someone who listens");
        }
    };
    let thread = std::thread::Builder::new().stack_size(STACK).spawn(serve);
    thread.expect("a thread").join().expect("no panic outside the runs");
}

/// The asking side.
pub struct Worker {
    child: Child,
    input: ChildStdin,
    output: ChildStdout,
    /// How many children were used up.
    pub ended: u64,
}

impl Worker {
    pub fn start() -> Worker {
        let (child, input, output) = start();
        Worker { child, input, output, ended: 0 }
    }

    /// The outcome of a run over an image that passed the check.
    pub fn run(&mut self, words: &[u32], names: &[u8], accents: Accents, most: u32) -> Outcome {
        let mut question = vec![];
        let guarded = (accents == Accents::Guarded) as u32;
        push_words(&mut question, &[words.len() as u32, names.len() as u32, guarded, most]);
        push_words(&mut question, words);
        question.extend(names);
        match self.ask(&question) {
            Ok(outcome) => outcome,
            Err(_) => {
                self.child.wait().expect("the child's end");
                (self.child, self.input, self.output) = start();
                self.ended += 1;
                Outcome::NoEnd
            }
        }
    }

    fn ask(&mut self, question: &[u8]) -> io::Result<Outcome> {
        self.input.write_all(question)?;
        self.input.flush()?;
        Ok(match read_words(&mut self.output, 1)?[0] {
            0 => {
                let head = read_words(&mut self.output, 3)?;
                let words = read_words(&mut self.output, head[2] as usize)?;
                Outcome::Done(Tables { slots: head[0], bindings: head[1], words })
            }
            1 => Outcome::NoOperand,
            2 => Outcome::Cycle,
            3 => Outcome::EndlessCycle,
            4 => Outcome::Panic,
            5 => Outcome::NotText,
            _ => Outcome::NoEnd,
        })
    }
}

impl Drop for Worker {
    fn drop(&mut self) {
        let _ = self.child.kill();
        let _ = self.child.wait();
    }
}

fn start() -> (Child, ChildStdin, ChildStdout) {
    let program = std::env::current_exe().expect("this program");
    let mut child = Command::new(program)
        .arg(WORKER)
        .stdin(Stdio::piped())
        .stdout(Stdio::piped())
        .stderr(Stdio::null())
        .spawn()
        .expect("a child process");
    let (input, output) = (child.stdin.take(), child.stdout.take());
    (child, input.expect("a pipe"), output.expect("a pipe"))
}
