//! The tables of the pages for a reader, held to the library and the built programs. What
//! is expected comes from the page itself and from document 01.

mod cable;
mod cells;
mod examples;
mod explain;
mod neighbours;
mod promised;
mod questions;
mod refusals;
mod sheet;
mod tables;
mod together;
mod trial;

pub use explain::{Built, Programs, Said};

use crate::distance::Held;
use std::path::Path;
use tables::{Row, Section};

/// The pages whose tables are checked, every one of them.
pub const PAGES: [&str; 3] = ["docs/INPUTS.md", "README.md", "examples/README.md"];

/// A table that is checked: where it stands, its columns, and how.
struct Claim {
    page: &'static str,
    section: &'static str,
    header: &'static str,
    check: fn(&Found, &Desk) -> Findings,
}

const CLAIMS: [Claim; 7] = [
    Claim {
        page: PAGES[0],
        section: cable::SECTION,
        header: cable::HEADER,
        check: cable::check,
    },
    Claim {
        page: PAGES[0],
        section: "What is asked",
        header: "typed | what | unit | range | beyond it",
        check: questions::check,
    },
    Claim {
        page: PAGES[0],
        section: "What goes together",
        header: "rule | beyond it",
        check: together::check,
    },
    Claim {
        page: PAGES[0],
        section: "The bytes of a sheet",
        header: "part | bytes | what | range | beyond it",
        check: sheet::check,
    },
    Claim {
        page: PAGES[0],
        section: "Every refusal",
        header: "number | condition | place | comes from | what to do",
        check: refusals::check,
    },
    Claim {
        page: PAGES[1],
        section: "What is promised",
        header: "answer | in | how far from the exact one | proved for",
        check: promised::check,
    },
    Claim {
        page: PAGES[2],
        section: "Sheets to try",
        header: "sheet | before | steps | neighbours | prints",
        check: examples::check,
    },
];

/// What stands around the pages.
pub struct Desk<'a> {
    /// The repository's folder.
    pub root: &'a Path,
    pub programs: &'a dyn Programs,
}

/// A table that was found on a page.
struct Found<'a> {
    sections: &'a [Section<'a>],
    /// The sentences of its section.
    prose: &'a str,
    rows: &'a [Row<'a>],
}

/// What came of the trials of a row; or why a cell is not understood.
type Tried = Result<Vec<Held>, String>;

/// How many things hold, and the words for those that do not.
#[derive(Debug, Default)]
pub struct Findings {
    pub held: usize,
    pub failed: Vec<String>,
}

impl Findings {
    /// Notes what came of one place of a page: the first failure, and how many more.
    fn note(&mut self, place: &str, tried: Tried) {
        let all = tried.unwrap_or_else(|why| vec![Err(why)]);
        let count = all.len();
        let failed: Vec<String> = all.into_iter().filter_map(Held::err).collect();
        self.held += count - failed.len();
        if let [first, more @ ..] = &failed[..] {
            let more = match more.len() {
                0 => String::new(),
                count => format!(" (and {count} more)"),
            };
            self.failed.push(format!("{place}: {first}{more}"));
        }
    }

    /// Takes the findings of a part of a page.
    fn join(&mut self, place: &str, part: Findings) {
        self.held += part.held;
        let failed = part.failed.iter().map(|why| format!("{place}, {why}"));
        self.failed.extend(failed);
    }
}

/// Checks each row, where the first cells are those that are expected.
fn each_row(rows: &[Row], firsts: &[&str], check: impl Fn(usize, &Row) -> Tried) -> Findings {
    let mut findings = Findings::default();
    let found: Vec<&str> = rows.iter().map(|row| row[0]).collect();
    if found != firsts {
        let why = format!("the first cells should be {firsts:?}, not {found:?}");
        findings.note("rows", Err(why));
        return findings;
    }
    for (index, row) in rows.iter().enumerate() {
        findings.note(&label(index, row), check(index, row));
    }
    findings
}

/// A row as a failure names it.
fn label(index: usize, row: &Row) -> String {
    format!("row {} ({})", index + 1, row[0])
}

/// The cells of a row as an array.
fn cells<'a, const N: usize>(row: &Row<'a>) -> Result<[&'a str; N], String> {
    let told = |_| format!("it should have {N} cells");
    row.clone().try_into().map_err(told)
}

/// The sentences and the rows of the one table of a section.
fn find<'a>(
    sections: &'a [Section<'a>],
    section: &str,
    header: &str,
) -> Result<(&'a str, &'a [Row<'a>]), String> {
    let here: Vec<&Section> = sections.iter().filter(|s| s.heading == section).collect();
    let [Section { prose, tables, .. }] = here[..] else {
        return Err(format!("there are {} such sections", here.len()));
    };
    match &tables[..] {
        [table] => Ok((prose, table.rows(header)?)),
        _ => Err(format!(
            "there are {} tables, of which 1 is checked",
            tables.len()
        )),
    }
}

/// Checks every table of a page, and that there is no other.
pub fn check(page: &str, text: &str, desk: &Desk) -> Findings {
    let sections = tables::sections(text);
    let mut findings = Findings::default();
    let claims = || CLAIMS.iter().filter(|claim| claim.page == page);
    for claim in claims() {
        let place = format!("{page}, table '{}'", claim.section);
        match find(&sections, claim.section, claim.header) {
            Err(why) => findings.note(&place, Err(why)),
            Ok((prose, rows)) => {
                let found = Found {
                    sections: &sections,
                    prose,
                    rows,
                };
                findings.join(&place, (claim.check)(&found, desk));
            }
        }
    }
    let with_tables = sections.iter().filter(|section| !section.tables.is_empty());
    for section in with_tables.map(|section| section.heading) {
        if claims().all(|claim| claim.section != section) {
            let place = format!("{page}, table '{section}'");
            findings.note(&place, Err("no check claims it".to_string()));
        }
    }
    findings
}

/// Checks the tables of all pages; whether each holds.
pub fn run(root: &Path, programs: &Path) -> bool {
    let built = Built::of(programs);
    let desk = Desk {
        root,
        programs: &built,
    };
    let mut all = true;
    for page in PAGES {
        let Ok(text) = std::fs::read_to_string(root.join(page)) else {
            println!("FAILED: {page} cannot be read");
            return false;
        };
        let Findings { held, failed } = check(page, &text, &desk);
        for trouble in &failed {
            println!("FAILED: {trouble}");
        }
        println!(
            "{page}: of its tables {held} things hold, {} rows fail",
            failed.len()
        );
        all &= failed.is_empty() && held > 0;
    }
    println!("{}", built.walks);
    all
}
