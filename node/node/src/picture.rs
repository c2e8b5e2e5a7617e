//! Pictures of a run: members against views, as text and as SVG.

use crate::trace::Line;
use std::collections::{BTreeMap, BTreeSet};
use std::fmt::Write as _;

/// How a kill is shown in a cell.
const KILLED: char = 'k';

/// The votes of each member in each view, as they were seen, and the finalized views.
pub struct Grid {
    members: u32,
    faulty: BTreeSet<u32>,
    cells: BTreeMap<(u32, u64), String>,
    finalized: BTreeSet<u64>,
    views: Vec<u64>,
}

impl Grid {
    /// The grid of a run's last views. A kill is a member, and the last finalized view when it was killed.
    pub fn new(members: u32, faulty: BTreeSet<u32>, votes: &[Line], kills: &[(u32, u64)], finalized: BTreeSet<u64>, last: usize) -> Grid {
        let mut cells: BTreeMap<(u32, u64), String> = BTreeMap::new();
        let voted = votes.iter().map(|vote| ((vote.signer, vote.view), vote.kind));
        for (place, letter) in voted.chain(kills.iter().map(|kill| (*kill, KILLED))) {
            let cell = cells.entry(place).or_default();
            if !cell.contains(letter) {
                cell.push(letter);
            }
        }
        let highest = finalized.last().copied().unwrap_or(0);
        let seen: BTreeSet<u64> = cells
            .keys()
            .map(|it| it.1)
            .chain(finalized.iter().copied())
            .filter(|it| *it <= highest)
            .collect();
        let views = seen.iter().rev().take(last).rev().copied().collect();
        Grid {
            members,
            faulty,
            cells,
            finalized,
            views,
        }
    }

    fn cell(&self, member: u32, view: u64) -> &str {
        self.cells.get(&(member, view)).map_or(".", String::as_str)
    }

    fn name(&self, member: u32) -> String {
        format!("node {member}{}", if self.faulty.contains(&member) { " (faulty)" } else { "" })
    }

    /// The grid as text, a column a view.
    pub fn text(&self) -> String {
        let mut rows = vec![("view".to_owned(), self.views.iter().map(u64::to_string).collect::<Vec<_>>())];
        for member in 0..self.members {
            let cells = self.views.iter().map(|view| self.cell(member, *view).to_owned()).collect();
            rows.push((self.name(member), cells));
        }
        let is_final = |view: &u64| if self.finalized.contains(view) { "F" } else { "" };
        rows.push((
            "finalized".to_owned(),
            self.views.iter().map(|view| is_final(view).to_owned()).collect(),
        ));
        let name = rows.iter().map(|row| row.0.len()).max().unwrap_or(0);
        let width: Vec<usize> = (0..self.views.len())
            .map(|at| rows.iter().map(|row| row.1[at].len()).max().unwrap_or(0))
            .collect();
        let mut text = String::new();
        for (row, cells) in rows {
            let _ = write!(text, "{row:name$}");
            for (cell, width) in cells.iter().zip(&width) {
                let _ = write!(text, " {cell:width$}");
            }
            text.truncate(text.trim_end().len());
            text.push('\n');
        }
        text
    }

    /// The grid as SVG: a cell is green where the member voted to finalize, blue where to notarize alone, red where to nullify, and has a
    /// cross where it was killed.
    pub fn svg(&self, caption: &str) -> String {
        let (left, top, size) = (110, 40, 14);
        let width = left + size * self.views.len() + 20;
        let height = top + size * (self.members as usize + 1) + 50;
        let mut svg = format!(
            "<svg xmlns=\"http://www.w3.org/2000/svg\" width=\"{width}\" height=\"{height}\" font-family=\"sans-serif\" font-size=\"11\">\n\
             <rect width=\"{width}\" height=\"{height}\" fill=\"white\"/>\n<text x=\"10\" y=\"18\" font-size=\"13\">{caption}</text>\n"
        );
        for member in 0..=self.members {
            let y = top + size * member as usize;
            let name = if member == self.members {
                "finalized".to_owned()
            } else {
                self.name(member)
            };
            let _ = writeln!(svg, "<text x=\"10\" y=\"{}\">{name}</text>", y + 11);
            for (at, view) in self.views.iter().enumerate() {
                let colour = if member == self.members {
                    self.mark(*view)
                } else {
                    colour_of(self.cell(member, *view))
                };
                let x = left + size * at;
                let _ = writeln!(svg, "<rect x=\"{x}\" y=\"{y}\" width=\"12\" height=\"12\" fill=\"{colour}\"/>");
                if self.cell(member, *view).contains(KILLED) {
                    svg.push_str(&cross(x, y));
                }
            }
        }
        let y = top + size * (self.members as usize + 1) + 14;
        for (at, view) in self.views.iter().enumerate().filter(|(_, view)| *view % 10 == 0) {
            let _ = writeln!(svg, "<text x=\"{}\" y=\"{y}\">{view}</text>", left + size * at);
        }
        svg.push_str(&cross(10, y + 10));
        let _ = writeln!(
            svg,
            "<text x=\"26\" y=\"{}\">killed; green: voted to finalize; blue: to notarize; red: to nullify; grey: no vote seen</text>\n</svg>",
            y + 20
        );
        svg
    }

    fn mark(&self, view: u64) -> &'static str {
        if self.finalized.contains(&view) { "#222222" } else { "#eeeeee" }
    }
}

/// A cross over the cell at this corner.
fn cross(x: usize, y: usize) -> String {
    let (left, right, top, bottom) = (x + 1, x + 11, y + 1, y + 11);
    format!(
        "<path class=\"kill\" d=\"M{left} {top}L{right} {bottom}M{left} {bottom}L{right} {top}\" stroke=\"black\" stroke-width=\"2\"/>\n"
    )
}

fn colour_of(cell: &str) -> &'static str {
    match (cell.contains('f'), cell.contains('x'), cell.contains('n')) {
        (true, ..) => "#3a9d5d",
        (_, true, _) => "#c8443c",
        (_, _, true) => "#4a7fc1",
        _ => "#dddddd",
    }
}

#[cfg(test)]
mod tests {
    use super::*;

    #[test]
    fn a_grid_shows_who_voted_for_what() {
        let vote = |signer, kind, view| Line {
            signer,
            kind,
            view,
            proposal: String::new(),
            seen_us: 0,
        };
        let votes = [vote(0, 'n', 1), vote(0, 'f', 1), vote(1, 'x', 1), vote(0, 'n', 2), vote(0, 'n', 3)];
        let grid = Grid::new(2, [1].into(), &votes, &[(0, 2)], [1, 2].into(), 9);
        assert_eq!(
            grid.text(),
            "view            1  2\nnode 0          nf nk\nnode 1 (faulty) x  .\nfinalized       F  F\n"
        );
        let svg = grid.svg("x");
        assert_eq!(
            (svg.matches("<rect").count(), svg.matches("class=\"kill\"").count()),
            (1 + 6, 1 + 1)
        );
    }
}
