//! The traces of a run's nodes, and the page of them.

use super::Arguments;
use simplex_node::network::Network;
use simplex_node::settings::Outcome;
use std::fs;
use std::path::{Path, PathBuf, absolute};

/// Refuses a folder with traces of an earlier run, and a page's file that holds something else, before anything is written.
pub fn test(arguments: &Arguments) -> Outcome {
    if let Some(html) = &arguments.html {
        simplex_view::test_output(html)?;
    }
    let Some(folder) = &arguments.trace else { return Ok(()) };
    let taken = (0..arguments.nodes).map(|index| file_of(folder, index)).find(|it| it.exists());
    match taken {
        Some(file) => Err(format!("{} is there: name a new folder for --trace, or move it away", file.display()).into()),
        None => Ok(()),
    }
}

/// Has each node write a trace, where one is asked for. Returns their files.
pub fn begin(network: &mut Network, arguments: &Arguments) -> Outcome<Vec<PathBuf>> {
    let folder = match (&arguments.trace, &arguments.html) {
        (Some(folder), _) => folder.clone(),
        (None, Some(_)) => network.folder().to_owned(),
        (None, None) => return Ok(Vec::new()),
    };
    fs::create_dir_all(&folder).map_err(|error| format!("--trace {}: {error}", folder.display()))?;
    let files = (0..arguments.nodes).map(|index| Ok(absolute(file_of(&folder, index))?));
    let files: Vec<PathBuf> = files.collect::<Outcome<_>>()?;
    for (index, file) in (0..).zip(&files) {
        network.set(index, |settings| settings.events = Some(file.clone()))?;
    }
    Ok(files)
}

/// Writes the page of the traces, where one is asked for.
pub fn end(files: &[PathBuf], arguments: &Arguments) -> Outcome {
    if let Some(html) = &arguments.html {
        let page = simplex_view::write(files, html)?;
        println!("{}: {page}", html.display());
    }
    Ok(())
}

fn file_of(folder: &Path, index: u32) -> PathBuf {
    folder.join(format!("{index}.trace"))
}
