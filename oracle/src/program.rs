//! Runs of a program: what it is given on its standard input, and what it answers.

use std::env::temp_dir;
use std::fs::{File, remove_file};
use std::io::{self, Seek, Write};
use std::path::{Path, PathBuf};
use std::process::{ChildStdin, Command, Stdio, id};
use std::sync::Mutex;
use std::sync::atomic::{AtomicUsize, Ordering};
use std::thread;
use std::time::Duration;

/// How the input comes.
pub enum Feed {
    /// All at once, as far as a pipe holds it.
    Whole,
    /// In pieces of these sizes in turn, 0 for a pause; the other side may run after each.
    Pieces(Vec<usize>),
    /// From a file, whose bytes are not looked at.
    File(&'static str),
    /// From a file that is made of them, with zeros after them up to this length.
    Stored(u64),
}

pub struct Input {
    pub bytes: Vec<u8>,
    pub feed: Feed,
}

impl Input {
    pub fn whole(bytes: Vec<u8>) -> Input {
        Input {
            bytes,
            feed: Feed::Whole,
        }
    }

    /// The same bytes, from a file.
    pub fn stored(bytes: Vec<u8>) -> Input {
        let feed = Feed::Stored(bytes.len() as u64);
        Input { bytes, feed }
    }

    /// How long it is.
    pub fn length(&self) -> u64 {
        match self.feed {
            Feed::Stored(length) => length,
            _ => self.bytes.len() as u64,
        }
    }

    /// Writes the input to a file of this name, and hands that back at its start.
    pub fn keep(&self, name: &Path) -> io::Result<File> {
        let mut options = File::options();
        options.read(true).write(true).create(true).truncate(true);
        let mut file = options.open(name)?;
        file.write_all(&self.bytes)?;
        file.set_len(self.length())?;
        file.rewind()?;
        Ok(file)
    }

    /// A file of the input, which is gone when it is closed.
    fn file(&self) -> io::Result<File> {
        static NEXT: AtomicUsize = AtomicUsize::new(0);
        let next = NEXT.fetch_add(1, Ordering::Relaxed);
        let name = temp_dir().join(format!("input-{}-{next}", id()));
        let file = self.keep(&name);
        let _ = remove_file(&name);
        file
    }

    /// Writes the input. False where the program has stopped reading.
    fn write(&self, mut pipe: ChildStdin) -> bool {
        let mut rest = &self.bytes[..];
        let mut sizes = match &self.feed {
            Feed::Pieces(sizes) => sizes.iter().cycle(),
            _ => [].iter().cycle(),
        };
        while !rest.is_empty() {
            let size = sizes
                .next()
                .map_or(rest.len(), |size| rest.len().min(*size));
            let (piece, after) = rest.split_at(size);
            if pipe.write_all(piece).is_err() {
                return false;
            }
            rest = after;
            match size {
                0 => thread::sleep(Duration::from_micros(100)),
                _ => thread::yield_now(),
            }
        }
        true
    }
}

/// A program: the file to start, and the word to give it where that is a script that runs any program.
pub struct Program {
    file: PathBuf,
    word: Option<String>,
}

/// The program of this name: one of a folder of programs, or what a script runs for its name.
pub fn found(programs: &str, name: &str) -> Result<Program, String> {
    let script = Path::new(programs);
    let (file, word) = match script.is_file() {
        true => (script.to_path_buf(), Some(name.to_string())),
        false => (script.join(name), None),
    };
    match file.is_file() {
        true => Ok(Program { file, word }),
        false => Err(format!("{} is not there", file.display())),
    }
}

/// What a program writes. Any other status than 0, and anything on its standard error, is a failure. It may
/// stop reading before its input's end.
pub fn run(program: &Program, input: &Input) -> Result<Vec<u8>, String> {
    ran(program, input).map(|(written, _)| written)
}

/// What a program writes that must read its input to the end. Where the input comes from a file, this sees
/// the last byte that was read; where it comes by a pipe, only that more stayed unread than a pipe holds.
pub fn run_to_end(program: &Program, input: &Input) -> Result<Vec<u8>, String> {
    let name = program.file.display();
    match ran(program, input)? {
        (written, true) => Ok(written),
        _ => Err(format!("{name}: it does not read its input to the end")),
    }
}

/// What a program writes, and whether it was seen to leave nothing of its input unread.
fn ran(program: &Program, input: &Input) -> Result<(Vec<u8>, bool), String> {
    let name = program.file.display();
    let failed = |e: io::Error| format!("{name}: {e}");
    let file = match input.feed {
        Feed::File(name) => Some(File::open(name).map_err(failed)?),
        Feed::Stored(_) => Some(input.file().map_err(failed)?),
        _ => None,
    };
    let stdin = match &file {
        Some(file) => file.try_clone().map_err(failed)?.into(),
        None => Stdio::piped(),
    };
    let mut child = Command::new(&program.file)
        .args(&program.word)
        .stdin(stdin)
        .stdout(Stdio::piped())
        .stderr(Stdio::piped())
        .spawn()
        .map_err(failed)?;
    let pipe = child.stdin.take();
    let (done, written) = thread::scope(|scope| {
        let writer = pipe.map(|pipe| scope.spawn(|| input.write(pipe)));
        let done = child.wait_with_output();
        (done, writer.is_none_or(|writer| writer.join().unwrap()))
    });
    let done = done.map_err(failed)?;
    let said = String::from_utf8_lossy(&done.stderr);
    let said = said.trim_end();
    if done.status.code() != Some(0) {
        return Err(format!("{name}: {}: {said}", done.status));
    }
    if !done.stderr.is_empty() {
        return Err(format!("{name}: on its standard error: {said}"));
    }
    let read = match (file, &input.feed) {
        (Some(mut file), Feed::Stored(length)) => {
            file.stream_position().map_err(failed)? == *length
        }
        _ => written,
    };
    Ok((done.stdout, read))
}

/// Does each job below n, two at a time, and hands back what they found, in no order. The first failure
/// ends it.
pub fn two_at_a_time<T: Send, E: Send>(
    n: usize,
    job: impl Fn(usize) -> Result<T, E> + Sync,
) -> Result<Vec<T>, E> {
    let next = AtomicUsize::new(0);
    let failure = Mutex::new(None);
    let work = || {
        let mut found = Vec::new();
        loop {
            let k = next.fetch_add(1, Ordering::Relaxed);
            if k >= n {
                return found;
            }
            match job(k) {
                Ok(one) => found.push(one),
                Err(one) => {
                    next.store(n, Ordering::Relaxed);
                    failure.lock().unwrap().get_or_insert(one);
                }
            }
        }
    };
    let found = thread::scope(|scope| {
        let other = scope.spawn(work);
        let mut found = work();
        found.extend(other.join().unwrap());
        found
    });
    match failure.into_inner().unwrap() {
        None => Ok(found),
        Some(one) => Err(one),
    }
}
