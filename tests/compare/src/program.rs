//! Runs the listing program under test on a journal.

use std::cell::RefCell;
use std::fs::{self, File};
use std::io::{self, Read, Seek, Write};
use std::path::PathBuf;
use std::process::{Child, ChildStderr, Command, Stdio};
use std::sync::atomic::{AtomicUsize, Ordering};
use std::sync::mpsc;
use std::thread;
use std::time::Duration;

/// A run that takes longer is stopped and counts as failed.
const TIME_LIMIT: Duration = Duration::from_secs(60);

/// After so many stopped runs the program is not started any more.
const MOST_STOPPED: usize = 3;

pub struct Program {
    path: PathBuf,
    stopped: AtomicUsize,
}

/// The journal and the listing of a run, each a file without a name: the program writes a line in pieces, and
/// through a pipe each of them would wake whoever reads it.
struct Files {
    journal: File,
    listing: File,
}

thread_local! {
    static FILES: RefCell<Option<Files>> = const { RefCell::new(None) };
}

impl Program {
    pub fn new(path: &str) -> Program {
        Program { path: path.into(), stopped: AtomicUsize::new(0) }
    }

    /// What the program prints for the journal, or what went wrong.
    pub fn listing(&self, journal: &[u8]) -> Result<String, String> {
        if self.stopped.load(Ordering::Relaxed) >= MOST_STOPPED {
            return Err("not run, since earlier runs did not end in time".to_string());
        }
        FILES.with_borrow_mut(|kept| {
            let mut files = match kept.take() {
                Some(files) => files,
                None => Files::new().map_err(|error| error.to_string())?,
            };
            files.write(journal).map_err(|error| error.to_string())?;
            let mut child = self.start(&files)?;
            let end = child.stderr.take().ok_or("no standard error")?;
            let ended = self.wait_in_time(&mut child, end);
            let status = child.wait().map_err(|error| error.to_string())?;
            ended?;
            if !status.success() {
                return Err(format!("the program ended with {status}"));
            }
            let bytes = files.read().map_err(|error| error.to_string())?;
            *kept = Some(files);
            String::from_utf8(bytes).map_err(|_| "output is not text".to_string())
        })
    }

    fn start(&self, files: &Files) -> Result<Child, String> {
        let handed = |file: &File| file.try_clone().map_err(|error| error.to_string());
        Command::new(&self.path)
            .stdin(handed(&files.journal)?)
            .stdout(handed(&files.listing)?)
            .stderr(Stdio::piped())
            .spawn()
            .map_err(|error| format!("cannot run {}: {error}", self.path.display()))
    }

    /// Standard error is open as long as the program runs.
    fn wait_in_time(&self, child: &mut Child, mut end: ChildStderr) -> Result<(), String> {
        let (sender, receiver) = mpsc::channel();
        thread::spawn(move || sender.send(io::copy(&mut end, &mut io::sink())));
        match receiver.recv_timeout(TIME_LIMIT) {
            Ok(Ok(_)) => Ok(()),
            Ok(Err(error)) => Err(error.to_string()),
            Err(_) => {
                self.stopped.fetch_add(1, Ordering::Relaxed);
                let _ = child.kill();
                Err(format!("no end after {} seconds", TIME_LIMIT.as_secs()))
            }
        }
    }
}

impl Files {
    fn new() -> io::Result<Files> {
        Ok(Files { journal: Files::unnamed("journal")?, listing: Files::unnamed("listing")? })
    }

    fn unnamed(what: &str) -> io::Result<File> {
        static MADE: AtomicUsize = AtomicUsize::new(0);
        let number = MADE.fetch_add(1, Ordering::Relaxed);
        let path = std::env::temp_dir().join(format!("compare-{}-{what}-{number}", std::process::id()));
        let file = File::options().read(true).write(true).create_new(true).open(&path)?;
        fs::remove_file(&path)?;
        Ok(file)
    }

    /// Both at their start: the journal holds these bytes, the listing none.
    fn write(&mut self, journal: &[u8]) -> io::Result<()> {
        for file in [&mut self.journal, &mut self.listing] {
            file.set_len(0)?;
            file.rewind()?;
        }
        self.journal.write_all(journal)?;
        self.journal.rewind()
    }

    fn read(&mut self) -> io::Result<Vec<u8>> {
        let mut bytes = Vec::new();
        self.listing.rewind()?;
        self.listing.read_to_end(&mut bytes)?;
        Ok(bytes)
    }
}
