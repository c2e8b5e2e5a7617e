//! Files and folders that something else takes the place of: they stay, under another name.

use crate::named::named;
use std::fs::{self, File};
use std::io;
use std::path::{Path, PathBuf};

/// Renames a file or folder: its name, a point and this ending, and a number where that is there already. Returns the new path.
pub fn set_aside(path: &Path, ending: &str) -> io::Result<PathBuf> {
    let with = |number: u32| {
        let mut name = path.as_os_str().to_owned();
        name.push(if number == 0 {
            format!(".{ending}")
        } else {
            format!(".{ending}.{number}")
        });
        PathBuf::from(name)
    };
    let free = (0..u32::MAX)
        .map(with)
        .find(|it| fs::symlink_metadata(it).is_err())
        .unwrap_or_else(|| with(u32::MAX));
    fs::rename(path, &free).map_err(named(path))?;
    let folder = path.parent().filter(|it| !it.as_os_str().is_empty()).unwrap_or(Path::new("."));
    File::open(folder).and_then(|it| it.sync_all()).map_err(named(folder))?;
    Ok(free)
}

#[cfg(test)]
mod tests {
    use super::*;
    use crate::trace::scratch;

    #[test]
    fn nothing_is_overwritten() {
        let folder = scratch("set-aside");
        let path = folder.join("archive");
        for number in 0..3 {
            fs::write(&path, number.to_string()).expect("a disk");
            let aside = set_aside(&path, "until-7").expect("a disk");
            assert_eq!(fs::read_to_string(aside).expect("a file"), number.to_string());
        }
        let names = ["archive.until-7", "archive.until-7.1", "archive.until-7.2"];
        assert!(
            names
                .iter()
                .enumerate()
                .all(|(number, name)| fs::read_to_string(folder.join(name)).expect("a file") == number.to_string())
        );
        assert!(!path.exists());
    }
}
