//! Writes a trace on a thread of its own.

use crate::event::{Event, Line};
use crate::file::TraceFile;
use std::io;
use std::sync::Arc;
use std::sync::atomic::{AtomicU64, Ordering::Relaxed};
use std::sync::mpsc::{Receiver, SyncSender, TryRecvError, sync_channel};
use std::thread::{self, JoinHandle};

/// A bounded queue of lines, and the thread that writes them.
///
/// [`Queue::send`] never waits: where the queue is full the line is dropped, and the trace counts it ([`Event::Dropped`]).
#[derive(Debug)]
pub struct Queue {
    to: Option<SyncSender<Line>>,
    dropped: Arc<AtomicU64>,
    writer: Option<JoinHandle<io::Result<()>>>,
}

impl Queue {
    /// Begins to write. `most` lines wait at most. Returns an error where no thread can begin.
    pub fn start(file: TraceFile, most: usize) -> io::Result<Queue> {
        let (to, from) = sync_channel(most);
        let dropped = Arc::new(AtomicU64::new(0));
        let counted = dropped.clone();
        let writer = thread::Builder::new()
            .name("trace".into())
            .spawn(move || write(file, &from, &counted))?;
        Ok(Queue {
            to: Some(to),
            dropped,
            writer: Some(writer),
        })
    }

    /// Has a line written, or counts it as dropped.
    pub fn send(&self, line: Line) {
        let is_taken = self.to.as_ref().is_some_and(|to| to.try_send(line).is_ok());
        if !is_taken {
            self.dropped.fetch_add(1, Relaxed);
        }
    }

    /// Waits until all lines that were taken are written. Returns the first error of the file.
    pub fn finish(mut self) -> io::Result<()> {
        self.close()
    }

    fn close(&mut self) -> io::Result<()> {
        self.to = None;
        let ended = self.writer.take().map_or(Ok(Ok(())), JoinHandle::join);
        ended.unwrap_or_else(|_| Err(io::Error::other("the thread that writes the trace ended")))
    }
}

impl Drop for Queue {
    fn drop(&mut self) {
        let _ = self.close();
    }
}

/// Writes lines until the queue is closed, and before each what was dropped since the one before.
fn write(mut file: TraceFile, from: &Receiver<Line>, dropped: &AtomicU64) -> io::Result<()> {
    let mut last = 0;
    loop {
        let line = match from.try_recv() {
            Ok(line) => line,
            Err(TryRecvError::Disconnected) => break,
            Err(TryRecvError::Empty) => {
                file.flush()?;
                let Ok(line) = from.recv() else { break };
                line
            }
        };
        count_dropped(&mut file, line.at, dropped)?;
        last = line.at;
        file.write(&line)?;
    }
    count_dropped(&mut file, last, dropped)?;
    file.flush()
}

fn count_dropped(file: &mut TraceFile, at: u64, dropped: &AtomicU64) -> io::Result<()> {
    let count = dropped.swap(0, Relaxed);
    if count == 0 {
        return Ok(());
    }
    let event = Event::Dropped { count };
    let line = Line {
        at,
        member: None,
        view: 0,
        event,
    };
    file.write(&line)
}

#[cfg(test)]
mod tests {
    use super::*;
    use crate::header::{Header, VERSION};
    use crate::reader::Trace;
    use std::fs;
    use std::time::{Duration, Instant};

    #[test]
    fn a_full_queue_drops_lines_and_counts_them_in_the_trace() {
        let path = std::env::temp_dir().join(format!("simplex-trace-{}-queue", std::process::id()));
        let _ = fs::remove_file(&path);
        let header = Header {
            simplex_trace: VERSION,
            source: "test".into(),
            members: 1,
            faulty: Vec::new(),
            term_length: 1,
            optimistic_views: 0,
            epoch: 1,
        };
        const LINES: u64 = 200_000;
        let queue = Queue::start(TraceFile::create(&path, &header).expect("a disk"), 8).expect("a thread");
        let begun = Instant::now();
        for at in 0..LINES {
            let event = Event::Store {
                bytes: at,
                entries: at,
                is_replacement: false,
            };
            let (member, view) = (Some(0), at);
            queue.send(Line { at, member, view, event });
        }
        assert!(begun.elapsed() < Duration::from_secs(20));
        queue.finish().expect("a disk");
        let trace = Trace::read(fs::read(&path).expect("a disk").as_slice()).expect("a trace");
        let dropped = |line: &Line| match line.event {
            Event::Dropped { count } => count,
            _ => 0,
        };
        let dropped: u64 = trace.lines.iter().map(dropped).sum();
        let written = trace.lines.iter().filter(|it| matches!(it.event, Event::Store { .. })).count() as u64;
        assert_eq!(written + dropped, LINES);
        assert!(dropped > 0, "a queue of eight lines was never full");
        fs::remove_file(path).expect("a disk");
    }
}
