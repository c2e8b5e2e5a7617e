//! The part of the chain's file that the disk has. The thread of the application builds, verifies and judges blocks, and the network may wait for its
//! votes: so it never waits for the disk, which takes seconds where others write much.

use std::fs::File;
use std::io;
use std::thread::{self, JoinHandle};

/// How many blocks the disk has, and the sync that runs.
#[derive(Debug, Default)]
pub struct Synced {
    height: u64,
    /// It returns how many blocks the disk has once it ends.
    running: Option<JoinHandle<io::Result<u64>>>,
}

impl Synced {
    /// The disk has so many blocks.
    pub fn at(height: u64) -> Synced {
        Synced { height, running: None }
    }

    /// Returns how many blocks the disk had after the last sync that ended. Begins another one of this file, which has so many, where none
    /// runs and the disk has fewer.
    ///
    /// # Errors
    ///
    /// Those of the sync that ended, and of beginning one.
    pub fn next(&mut self, file: &File, height: u64) -> io::Result<u64> {
        if let Some(ended) = self.running.take_if(|it| it.is_finished()) {
            self.height = ended.join().map_err(|_| io::Error::other("a sync panicked"))??;
        }
        if self.running.is_none() && self.height < height {
            let file = file.try_clone()?;
            let sync = move || file.sync_data().map(|()| height);
            self.running = Some(thread::Builder::new().name("chain".into()).spawn(sync)?);
        }
        Ok(self.height)
    }
}

#[cfg(test)]
mod tests {
    use super::*;
    use crate::trace::scratch;
    use std::time::{Duration, Instant};

    const SOON: Duration = Duration::from_secs(60);

    #[test]
    fn the_height_is_that_of_the_last_sync_that_ended() {
        let file = File::create(scratch("synced").join("chain")).expect("a disk");
        let mut synced = Synced::at(3);
        assert_eq!(synced.next(&file, 3).expect("a disk"), 3);
        assert!(synced.running.is_none(), "the disk has all");
        assert_eq!(synced.next(&file, 7).expect("a disk"), 3, "it runs");
        let begun = Instant::now();
        while synced.next(&file, 7).expect("a disk") != 7 {
            assert!(begun.elapsed() < SOON, "it does not end");
        }
        assert!(synced.running.is_none());
    }

    #[test]
    fn a_sync_that_the_disk_refused_is_an_error_of_the_next_call() {
        // (a pipe can't be synced)
        let (pipe, _) = io::pipe().expect("a pipe");
        let (file, mut synced) = (File::from(std::os::fd::OwnedFd::from(pipe)), Synced::default());
        let begun = Instant::now();
        while synced.next(&file, 1).is_ok() {
            assert!(begun.elapsed() < SOON, "it is taken for synced");
        }
    }
}
