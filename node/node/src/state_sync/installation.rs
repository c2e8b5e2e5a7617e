//! A snapshot on the disk, until the application has it. A crash at any moment leaves the old state, or an installation that the next start
//! carries to its end.
//!
//! The folder `snapshot` of the node's data has the file `pieces` while they come. Once all are on the disk, the file `manifest` is, which
//! says that from now on the snapshot is installed: the application takes it, the archive of older blocks is set aside under another name,
//! and the two files are removed.

use crate::application::Application;
use crate::archive;
use crate::faults::{Stage, Trial};
use crate::named::named;
use crate::set_aside::set_aside;
use simplex_wire::{Manifest, PIECE};
use std::fs::{self, File, OpenOptions};
use std::io::{self, BufReader, Read, Write};
use std::os::unix::fs::FileExt;
use std::path::{Path, PathBuf};
use tracing::{info, warn};

/// The folder of a node's snapshot.
pub fn path(folder: &Path) -> PathBuf {
    folder.join("snapshot")
}

fn pieces(folder: &Path) -> PathBuf {
    path(folder).join("pieces")
}

fn manifest(folder: &Path) -> PathBuf {
    path(folder).join("manifest")
}

fn sync_folder(folder: &Path) -> io::Result<()> {
    File::open(folder).and_then(|it| it.sync_all()).map_err(named(folder))
}

/// The file of the pieces that come.
#[derive(Debug)]
pub struct Download {
    path: PathBuf,
    file: File,
}

impl Download {
    /// A new file for the pieces of a snapshot, in place of an earlier one that was not installed.
    pub fn begin(folder: &Path, of: &Manifest) -> io::Result<Download> {
        fs::create_dir_all(path(folder)).map_err(named(folder))?;
        remove(&manifest(folder))?;
        let path = pieces(folder);
        let file = OpenOptions::new()
            .create(true)
            .truncate(true)
            .write(true)
            .open(&path)
            .map_err(named(&path))?;
        file.set_len(of.length).map_err(named(&path))?;
        Ok(Download { path, file })
    }

    /// Writes a piece that was verified.
    pub fn write(&self, index: u32, bytes: &[u8]) -> io::Result<()> {
        let begin = u64::from(index) * PIECE as u64;
        self.file.write_all_at(bytes, begin).map_err(named(&self.path))
    }
}

fn remove(path: &Path) -> io::Result<()> {
    match fs::remove_file(path) {
        Err(error) if error.kind() != io::ErrorKind::NotFound => Err(named(path)(error)),
        _ => Ok(()),
    }
}

/// Removes a snapshot that is installed, or is not any more.
pub fn discard(folder: &Path) -> io::Result<()> {
    remove(&manifest(folder))?;
    remove(&pieces(folder))?;
    // (a file of somebody else's may be in it)
    let _ = fs::remove_dir(path(folder));
    Ok(())
}

/// All pieces are in the file: the disk has them from now on, and that they are to be installed.
fn fix(folder: &Path, of: &Manifest) -> io::Result<()> {
    let pieces = pieces(folder);
    File::open(&pieces).and_then(|it| it.sync_all()).map_err(named(&pieces))?;
    let (new, path) = (manifest(folder).with_extension("new"), manifest(folder));
    let mut file = File::create(&new).map_err(named(&new))?;
    file.write_all(&of.encode()).and_then(|()| file.sync_all()).map_err(named(&new))?;
    fs::rename(&new, &path).map_err(named(&path))?;
    sync_folder(&self::path(folder))?;
    sync_folder(folder)
}

/// The application takes the snapshot whose pieces all came. The archive is set aside after it ([`set_archive_aside`]).
pub fn install(folder: &Path, of: &Manifest, application: &mut impl Application, trial: &Trial) -> io::Result<()> {
    fix(folder, of)?;
    trial.reached(Stage::Fetched);
    restore(folder, of, application)?;
    trial.reached(Stage::Restored);
    Ok(())
}

fn restore(folder: &Path, of: &Manifest, application: &mut impl Application) -> io::Result<()> {
    let path = pieces(folder);
    let mut bytes = BufReader::new(File::open(&path).map_err(named(&path))?.take(of.length));
    application.restore(of, &mut bytes)?;
    if (application.height(), application.last()) == (of.height, (of.view, of.payload)) {
        return Ok(());
    }
    Err(io::Error::other(format!(
        "the application took a snapshot of block {}, and says that its last block is {}",
        of.height,
        application.height()
    )))
}

/// Renames the archive of blocks up to a height, which a snapshot takes the place of.
pub fn set_archive_aside(folder: &Path, height: u64) -> io::Result<()> {
    let path = archive::path(folder);
    let has_files = || fs::read_dir(&path).is_ok_and(|mut it| it.next().is_some());
    if path.exists() && has_files() {
        let aside = set_aside(&path, &format!("until-{height}"))?;
        info!(archive = %aside.display(), "a snapshot takes the place of these blocks: remove them when you need them no more");
    }
    Ok(())
}

/// Returns what a crash amid an installation left: the snapshot, whose pieces are whole.
fn left(folder: &Path) -> io::Result<Option<Manifest>> {
    let path = manifest(folder);
    let bytes = match fs::read(&path) {
        Ok(bytes) => bytes,
        Err(error) if error.kind() == io::ErrorKind::NotFound => return Ok(None),
        Err(error) => return Err(named(&path)(error)),
    };
    Ok(Manifest::decode(&bytes).ok())
}

/// Returns whether the file of pieces has those of a manifest: the disk may have changed bytes since.
fn are_whole(folder: &Path, of: &Manifest) -> io::Result<bool> {
    let path = pieces(folder);
    let Ok(mut file) = File::open(&path) else { return Ok(false) };
    for index in 0..of.pieces.len() as u32 {
        let mut bytes = vec![0; of.length_of(index)];
        match file.read_exact(&mut bytes) {
            Ok(()) if of.is_piece(index, &bytes) => {}
            Err(error) if error.kind() != io::ErrorKind::UnexpectedEof => return Err(named(&path)(error)),
            _ => return Ok(false),
        }
    }
    Ok(true)
}

/// Carries an installation on that a crash ended, before the archive is opened. Returns the height up to which the archive is replaced, if
/// it is. The two files stay until [`discard`].
///
/// # Errors
///
/// Where the disk refuses, or the application does.
pub fn resume(folder: &Path, application: &mut impl Application) -> io::Result<Option<u64>> {
    let Some(of) = left(folder)? else { return Ok(None) };
    if application.height() < of.height {
        if !are_whole(folder, &of)? {
            warn!("a snapshot that was to be installed is damaged: it is fetched again");
            return Ok(None);
        }
        restore(folder, &of, application)?;
        info!(
            height = of.height,
            "the application took a snapshot that an earlier lifetime fetched"
        );
    }
    Ok(Some(of.height))
}

#[cfg(test)]
mod tests {
    use super::*;
    use crate::application::{Ancestors, Cancelled};
    use crate::trace::scratch;
    use simplex_view_state::{Context, Digest, View};
    use simplex_wire::Block;

    /// An application whose state is the bytes of its snapshot.
    #[derive(Default)]
    struct Bytes {
        height: u64,
        last: (View, Digest),
        state: Vec<u8>,
    }

    impl Application for Bytes {
        fn build(&mut self, _: &Context, _: &Ancestors, _: &Cancelled) -> Option<Vec<u8>> {
            None
        }
        fn verify(&mut self, _: &Block, _: &Ancestors, _: &Cancelled) -> Option<bool> {
            None
        }
        fn certify(&mut self, _: &Block, _: &Ancestors, _: &Cancelled) -> Option<bool> {
            None
        }
        fn finalized(&mut self, _: &Block) -> io::Result<()> {
            Ok(())
        }
        fn last(&self) -> (View, Digest) {
            self.last
        }
        fn height(&self) -> u64 {
            self.height
        }
        fn durable(&mut self) -> io::Result<u64> {
            Ok(self.height)
        }
        fn restore(&mut self, manifest: &Manifest, bytes: &mut dyn Read) -> io::Result<()> {
            self.state.clear();
            bytes.read_to_end(&mut self.state)?;
            (self.height, self.last) = (manifest.height, (manifest.view, manifest.payload));
            Ok(())
        }
    }

    fn snapshot() -> (Manifest, Vec<u8>) {
        let bytes: Vec<u8> = (0..2 * PIECE + 77).map(|it| (it % 253) as u8).collect();
        let manifest = Manifest::of(30, View::new(41), Digest::new([3; 32]), &bytes).expect("three pieces");
        (manifest, bytes)
    }

    /// A folder with the pieces, which came in another order.
    fn fetched(name: &str) -> PathBuf {
        let folder = scratch(name);
        let (manifest, bytes) = snapshot();
        let download = Download::begin(&folder, &manifest).expect("a disk");
        let pieces: Vec<&[u8]> = bytes.chunks(PIECE).collect();
        for index in [2, 0, 1] {
            download.write(index, pieces[index as usize]).expect("a disk");
        }
        folder
    }

    #[test]
    fn an_application_takes_what_was_fetched_and_nothing_is_left() {
        let folder = fetched("install");
        let (manifest, bytes) = snapshot();
        let mut it = Bytes::default();
        install(&folder, &manifest, &mut it, &Trial::default()).expect("a disk");
        assert_eq!((it.height, it.state), (30, bytes));
        discard(&folder).expect("a disk");
        assert!(!path(&folder).exists());
    }

    #[test]
    fn what_a_crash_left_is_installed_at_the_next_start_and_once() {
        let folder = fetched("install-crash");
        let (manifest, bytes) = snapshot();
        assert_eq!(
            resume(&folder, &mut Bytes::default()).expect("a disk"),
            None,
            "not all was on the disk"
        );
        fix(&folder, &manifest).expect("a disk");
        let mut it = Bytes::default();
        for _ in 0..2 {
            assert_eq!(resume(&folder, &mut it).expect("a disk"), Some(30));
            assert_eq!(it.state, bytes);
        }
        discard(&folder).expect("a disk");
        assert_eq!(resume(&folder, &mut it).expect("a disk"), None);
    }

    #[test]
    fn pieces_that_the_disk_changed_are_not_installed() {
        let (manifest, _) = snapshot();
        for at in [0, PIECE as u64, manifest.length - 1] {
            let folder = fetched("install-damage");
            fix(&folder, &manifest).expect("a disk");
            let file = OpenOptions::new().write(true).open(pieces(&folder)).expect("a file");
            file.write_all_at(&[0xff], at).expect("a disk");
            let mut it = Bytes::default();
            assert_eq!((resume(&folder, &mut it).expect("a disk"), it.height), (None, 0), "byte {at}");
        }
        let folder = fetched("install-cut");
        fix(&folder, &manifest).expect("a disk");
        OpenOptions::new()
            .write(true)
            .open(pieces(&folder))
            .expect("a file")
            .set_len(100)
            .expect("a disk");
        assert_eq!(resume(&folder, &mut Bytes::default()).expect("a disk"), None);
    }

    #[test]
    fn files_of_others_in_the_folder_stay() {
        let folder = fetched("install-others");
        fs::write(path(&folder).join("notes"), "mine").expect("a disk");
        discard(&folder).expect("a disk");
        assert_eq!(fs::read_to_string(path(&folder).join("notes")).expect("a file"), "mine");
    }
}
