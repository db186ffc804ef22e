//! The two exported functions in a process of their own: host/c/serve.c, which says what a call and its outcome are
//! in bytes. The archive is x86-64 code; through pipes an emulator can run it where Rust cannot link it.

use crate::harness::Exports;
use std::io::{self, BufReader, Read, Write};
use std::process::{Child, ChildStdin, ChildStdout, Command, Stdio};
use std::sync::atomic::{AtomicU64, Ordering};
use std::sync::{Arc, Mutex};
use std::thread;
use std::time::Duration;

const ANSWERS: u32 = 1;
const CHECK: u32 = 2;

pub struct Served {
    input: ChildStdin,
    output: BufReader<ChildStdout>,
    child: Arc<Mutex<Child>>,
    /// Calls that have their outcome.
    done: Arc<AtomicU64>,
    gone: bool,
}

impl Served {
    /// Starts the command. Where no call comes to its end for `limit`, the process is killed, so that a caller who
    /// waits for it sees its end.
    pub fn start(command: &[String], limit: Duration) -> io::Result<Served> {
        let mut words = command.iter();
        let program =
            words.next().ok_or_else(|| io::Error::new(io::ErrorKind::InvalidInput, "no command"))?;
        let mut child =
            Command::new(program).args(words).stdin(Stdio::piped()).stdout(Stdio::piped()).spawn()?;
        let input = child.stdin.take().expect("piped");
        let output = BufReader::new(child.stdout.take().expect("piped"));
        let (child, done) = (Arc::new(Mutex::new(child)), Arc::new(AtomicU64::new(0)));
        kill_when_idle(&child, &done, limit);
        Ok(Served { input, output, child, done, gone: false })
    }

    /// Has the process ended, or said something that is no outcome? Further calls are then in vain.
    pub fn is_gone(&self) -> bool {
        self.gone
    }

    /// Ends the input; the process then has to end well, with nothing more to say.
    pub fn close(mut self) -> Result<(), String> {
        drop(self.input);
        let mut more = vec![];
        self.output.read_to_end(&mut more).map_err(|error| error.to_string())?;
        let status = loop {
            // Not `wait`: it would keep the lock, and with it whoever kills an idle process.
            match self.child.lock().expect("no holder panics").try_wait() {
                Ok(Some(status)) => break status,
                Ok(None) => {}
                Err(error) => return Err(error.to_string()),
            }
            thread::sleep(Duration::from_millis(1));
        };
        match (status.success(), more.len()) {
            (true, 0) => Ok(()),
            (true, more) => Err(format!("the process wrote {more} bytes more")),
            (false, _) => Err(format!("the process ended with {status}")),
        }
    }

    /// One call and its outcome; `out` is filled with the bytes that come behind it.
    fn call(&mut self, kind: u32, slices: [&[u8]; 3], out: &mut [u8]) -> Result<u64, String> {
        if self.gone {
            return Err("the process is gone".to_string());
        }
        let outcome = self.exchange(kind, slices, out);
        self.gone = !matches!(outcome, Ok((_, 0 | 1)));
        self.done.fetch_add(1, Ordering::Relaxed);
        match outcome {
            Ok((result, 0)) => Ok(result),
            Ok((_, 1)) => Err("a byte was changed that has to stay".to_string()),
            Ok((_, other)) => Err(format!("no outcome: {other} where 0 or 1 stands")),
            Err(error) => Err(format!("no outcome: {error}")),
        }
    }

    fn exchange(&mut self, kind: u32, slices: [&[u8]; 3], out: &mut [u8]) -> io::Result<(u64, u32)> {
        let [a, b, c] = slices.map(|slice| slice.len() as u32);
        let head = [kind, a, b, c].map(u32::to_le_bytes).concat();
        // In one piece, so that it takes one write where the pipe has room.
        self.input.write_all(&[&head, slices[0], slices[1], slices[2]].concat())?;
        let (mut result, mut changed) = ([0; 8], [0; 4]);
        self.output.read_exact(&mut result)?;
        self.output.read_exact(&mut changed)?;
        self.output.read_exact(out)?;
        Ok((u64::from_le_bytes(result), u32::from_le_bytes(changed)))
    }
}

impl Exports for Served {
    fn answers(&mut self, job: &[u8], out: &mut [u8]) -> Result<u64, String> {
        let before = out.to_vec();
        self.call(ANSWERS, [job, &before, &[]], out)
    }
    fn check(&mut self, circuit: &[u8], public: &[u8], query: &[u8]) -> Result<u64, String> {
        self.call(CHECK, [circuit, public, query], &mut [])
    }
}

/// Looks at the count of calls once in every `limit`, as long as somebody holds the process.
fn kill_when_idle(child: &Arc<Mutex<Child>>, done: &Arc<AtomicU64>, limit: Duration) {
    let (child, done) = (Arc::downgrade(child), Arc::clone(done));
    thread::spawn(move || {
        let mut before = None;
        while let Some(child) = child.upgrade() {
            let now = Some(done.load(Ordering::Relaxed));
            if now == before {
                // One that has ended by now needs no killing.
                let _ = child.lock().expect("no holder panics").kill();
                return;
            }
            before = now;
            drop(child);
            thread::sleep(limit);
        }
    });
}
