//! What was seen on the way through the histories.

use crate::codes;
use crate::render::LinkLine;

/// How often each thing was seen.
#[derive(Default)]
pub struct Counts {
    pub lists: u64,
    pub calls: u64,
    /// Accepted rows, those of text calls among them.
    pub rows: u64,
    pub cells: u64,
    pub horizontal: u64,
    /// Single marks, of which a cell can have several.
    pub forks_and_merges: u64,
    pub swaps: u64,
    pub anonymous: u64,
    pub unlinked: u64,
    pub arrivals: u64,
}

impl Counts {
    /// Counts the marks of a cell.
    pub fn cell(&mut self, marks: LinkLine) {
        let found = codes::marks().filter(|(_, mark)| marks.contains(*mark));
        let links = found.filter(|(_, mark)| mark.intersects(LinkLine::ANY_FORK_OR_MERGE));
        self.cells += 1;
        self.horizontal += u64::from(marks.intersects(LinkLine::HORIZONTAL));
        self.forks_and_merges += links.count() as u64;
    }

    /// Prints each count.
    pub fn print(&self) {
        println!("lists {}", self.lists);
        println!("reserving, row and text calls {}", self.calls);
        println!("accepted rows, those of text calls too {}", self.rows);
        println!("cells looked at {}", self.cells);
        println!("HORIZONTAL cells {}", self.horizontal);
        println!("forks and merges {}", self.forks_and_merges);
        println!("rows with a swap {}", self.swaps);
        println!("rows with Anonymous entries {}", self.anonymous);
        println!("rows without a link line {}", self.unlinked);
        println!("rows of ids named before {}", self.arrivals);
    }
}
