//! The supervisor: hands the lines to a worker, and answers for it and starts
//! another one when a question has ended it.

use std::io::{self, BufWriter, Read, Write};
use std::process::{Child, ChildStdout, Command, Stdio};
use std::sync::atomic::{AtomicBool, Ordering};
use std::sync::mpsc::{channel, sync_channel, Receiver, RecvTimeoutError, Sender, SyncSender};
use std::sync::{Arc, Mutex};
use std::time::Duration;

/// A question without an answer for so long is taken to go in a circle.
const PATIENCE: Duration = Duration::from_secs(20);

/// A batch is handed over when it has this many bytes.
const BATCH: usize = 1 << 20;

/// A line of so many bytes or more is no question. It is handed on as an empty
/// line, which is none either.
const TOO_LONG: usize = 1 << 20;

/// Some lines, each ended by a line feed.
struct Batch {
    bytes: Vec<u8>,
    starts: Vec<usize>,
}

/// The lines from a place in a batch on, to be written to a worker.
type Lines = (Arc<Batch>, usize);

/// A running worker.
struct Worker {
    child: Arc<Mutex<Child>>,
    answers: ChildStdout,
    lines: Sender<Lines>,
    progress: Sender<bool>,
    given_up: Arc<AtomicBool>,
}

impl Worker {
    fn start() -> io::Result<Worker> {
        let mut child = Command::new(std::env::current_exe()?)
            .arg("--worker")
            // A worker dies often, and should do so without long words.
            .env("RUST_BACKTRACE", "0")
            .stdin(Stdio::piped())
            .stdout(Stdio::piped())
            .stderr(Stdio::piped())
            .spawn()?;
        let mut questions = child.stdin.take().expect("it is piped");
        let answers = child.stdout.take().expect("it is piped");
        let child = Arc::new(Mutex::new(child));
        let given_up = Arc::new(AtomicBool::new(false));

        // Writing has a thread of its own: worker and supervisor would
        // otherwise wait for each other when both pipes are full.
        let (lines, to_write): (_, Receiver<Lines>) = channel();
        std::thread::spawn(move || {
            for (batch, from) in to_write {
                if questions.write_all(&batch.bytes[from..]).is_err() {
                    return;
                }
            }
        });

        let (progress, news) = channel();
        let watched = (Arc::clone(&child), Arc::clone(&given_up));
        std::thread::spawn(move || watch(&news, &watched.0, &watched.1));

        Ok(Worker {
            child,
            answers,
            lines,
            progress,
            given_up,
        })
    }

    /// Hands over lines. A dead worker shows when its answers are read.
    fn hand(&self, batch: &Arc<Batch>, from: usize) {
        let _ = self.progress.send(true);
        let _ = self.lines.send((Arc::clone(batch), from));
    }

    /// The answer to the question that ended this worker.
    fn last_answer(self) -> io::Result<&'static str> {
        let mut words = String::new();
        let mut child = self.child.lock().expect("no thread panics");
        if let Some(mut stderr) = child.stderr.take() {
            stderr.read_to_string(&mut words)?;
        }
        child.wait()?;
        Ok(if self.given_up.load(Ordering::SeqCst) {
            "circles\n"
        } else if words.contains("memory allocation of") {
            "memory\n"
        } else {
            "driver fault\n"
        })
    }
}

/// Ends a worker that has lines and gives no answer. The news say whether it
/// still has lines to answer.
fn watch(news: &Receiver<bool>, child: &Mutex<Child>, given_up: &AtomicBool) {
    let mut busy = false;
    loop {
        let heard = if busy {
            news.recv_timeout(PATIENCE)
        } else {
            news.recv().map_err(|_| RecvTimeoutError::Disconnected)
        };
        match heard {
            Ok(state) => busy = state,
            Err(RecvTimeoutError::Disconnected) => return,
            Err(RecvTimeoutError::Timeout) => {
                given_up.store(true, Ordering::SeqCst);
                // A worker that has just ended can't be killed; no matter.
                let _ = child.lock().expect("no thread panics").kill();
                return;
            }
        }
    }
}

/// Answers every line of standard input.
pub fn run() -> io::Result<()> {
    let (to_answer, batches) = sync_channel(2);
    let reading = std::thread::spawn(move || read_batches(&to_answer));
    let mut output = BufWriter::with_capacity(1 << 16, io::stdout().lock());
    let mut worker: Option<Worker> = None;
    for batch in batches {
        answer(&Arc::new(batch), &mut worker, &mut output)?;
        output.flush()?;
    }
    if let Some(Worker {
        child,
        answers,
        lines,
        ..
    }) = worker
    {
        // With its questions at an end the worker ends too.
        drop(lines);
        drop(answers);
        child.lock().expect("no thread panics").wait()?;
    }
    reading.join().expect("no thread panics")
}

fn answer(
    batch: &Arc<Batch>,
    worker: &mut Option<Worker>,
    output: &mut impl Write,
) -> io::Result<()> {
    let mut answered = 0;
    let mut buffer = vec![0; 1 << 16];
    while answered < batch.starts.len() {
        if worker.is_none() {
            *worker = Some(Worker::start()?);
        }
        let Some(now) = worker.as_mut() else { continue };
        now.hand(batch, batch.starts[answered]);
        // Part of an answer, kept until its line feed is there.
        let mut part: Vec<u8> = Vec::new();
        while answered < batch.starts.len() {
            let count = now.answers.read(&mut buffer)?;
            if count == 0 {
                break;
            }
            let chunk = &buffer[..count];
            let lines = chunk.iter().filter(|byte| **byte == b'\n').count();
            if lines == 0 {
                part.extend_from_slice(chunk);
                continue;
            }
            answered += lines;
            let whole = chunk.iter().rposition(|byte| *byte == b'\n').unwrap_or(0) + 1;
            output.write_all(&part)?;
            output.write_all(&chunk[..whole])?;
            part.clear();
            part.extend_from_slice(&chunk[whole..]);
            let _ = now.progress.send(answered < batch.starts.len());
        }
        if answered < batch.starts.len() {
            if let Some(dead) = worker.take() {
                output.write_all(dead.last_answer()?.as_bytes())?;
                answered += 1;
            }
        }
    }
    Ok(())
}

/// Reads standard input and cuts it into batches of whole lines. What has come
/// is handed on at once, so that a person who types a line gets an answer.
fn read_batches(to_answer: &SyncSender<Batch>) -> io::Result<()> {
    let mut input = io::stdin().lock();
    let mut buffer = vec![0; BATCH];
    let mut open: Vec<u8> = Vec::new();
    loop {
        let count = match input.read(&mut buffer) {
            Err(error) if error.kind() == io::ErrorKind::Interrupted => continue,
            count => count?,
        };
        let ended = count == 0;
        let mut batch = Batch {
            bytes: Vec::with_capacity(open.len() + count + 1),
            starts: Vec::new(),
        };
        let mut add = |line: &mut Vec<u8>| {
            if line.len() >= TOO_LONG {
                line.clear();
            }
            batch.starts.push(batch.bytes.len());
            batch.bytes.append(line);
            batch.bytes.push(b'\n');
        };
        for piece in buffer[..count].split_inclusive(|byte| *byte == b'\n') {
            let (text, whole) = match piece.split_last() {
                Some((b'\n', text)) => (text, true),
                _ => (piece, false),
            };
            let room = TOO_LONG - open.len();
            open.extend_from_slice(&text[..text.len().min(room)]);
            if whole {
                add(&mut open);
            }
        }
        // A last line without a line feed is a line, unless it is empty.
        if ended && !open.is_empty() {
            add(&mut open);
        }
        if !batch.starts.is_empty() && to_answer.send(batch).is_err() {
            return Ok(());
        }
        if ended {
            return Ok(());
        }
    }
}
