//! bench POINTS [FOLDER]: the port and the published Rust on the same inputs in one run, and the port and a plain Rust on records; a table of each on
//! standard output, and the points of growing sizes as lines `kind series size port rust` (nanoseconds) in the file POINTS.
//! FOLDER may hold further inputs: files that end in .md are Markdown, the others pages. bench search: see search.rs.
mod codes;
mod inputs;
#[path = "../target/compare/notes.rs"]
#[allow(dead_code)]
mod notes;
#[path = "../compare/src/oracle.rs"]
#[allow(dead_code)]
mod oracle;
mod plain;
#[path = "../compare/src/port.rs"]
#[allow(dead_code)]
mod port;
#[path = "../compare/src/random.rs"]
mod random;
mod search;
mod sections;
mod theme {
    pub const SEMIBOLD: &str = "";
}
mod timing;

use inputs::Kind;
use std::time::Duration;
use timing::{measure, stop, Buffers, Effort};

/// Two tenths of a second for each input.
const EFFORT: Effort = Effort { time: Duration::from_millis(200), rounds: 4_000 };

fn row(name: &str, size: usize, (port, rust): (f64, f64)) {
    println!("| {name} | {size} | {:.1} | {:.1} | {:.2} |", port / 1000.0, rust / 1000.0, port / rust);
}

fn folder_rows(folder: &str, b: &mut Buffers) {
    let entries = std::fs::read_dir(folder).unwrap_or_else(|e| stop(format!("{folder}: {e}; FOLDER has to be one that can be read")));
    let mut files: Vec<_> = entries.filter_map(|entry| Some(entry.ok()?.path())).filter(|path| path.is_file()).collect();
    files.sort();
    for file in files {
        let name = file.display().to_string();
        let input = std::fs::read(&file).unwrap_or_else(|e| stop(format!("{name}: {e}; take it out of FOLDER, or let it be read")));
        let kind = if file.extension().is_some_and(|e| e == "md") { Kind::Markdown } else { Kind::Page };
        let short = file.file_name().map_or(name.clone(), |last| last.to_string_lossy().into_owned());
        row(&short, input.len(), measure(&name, kind, &input, EFFORT, b));
    }
}

/// The rows of all series; answers their points.
fn series_rows(b: &mut Buffers) -> String {
    let mut points = String::new();
    for s in &inputs::SERIES {
        let (kind, sizes) = match s.kind {
            Kind::Page => ("page", [1_000, 10_000, 100_000, 1_000_000]),
            Kind::Markdown => ("Markdown", [1_000, 4_000, 16_000, 64_000]),
        };
        for (n, size) in sizes.into_iter().enumerate() {
            let input = s.of_size(size);
            let times = measure(s.name, s.kind, &input, EFFORT, b);
            row(s.name, input.len(), times);
            points.push_str(&format!("{kind}\t{}\t{}\t{:.0}\t{:.0}\n", s.name, input.len(), times.0, times.1));
            // the next size is left out where a Rust that is quadratic would take more than five seconds for it
            let growth = sizes.get(n + 1).map_or(0.0, |next| (*next / size) as f64);
            if times.1 * growth * growth > 5e9 {
                break;
            }
        }
    }
    points
}

fn main() {
    let words: Vec<String> = std::env::args().skip(1).collect();
    let Some(points) = words.first() else { stop("give the file for the points; bench/run NOTES_RS [FOLDER] does".to_string()) };
    if points == "search" {
        return search::run(&words[1..]);
    }
    let mut b = Buffers::new();
    println!("| input | bytes | port, µs | Rust, µs | port / Rust |\n|---|---|---|---|---|");
    for input in inputs::fixed() {
        row(input.name, input.bytes.len(), measure(input.name, input.kind, &input.bytes, EFFORT, &mut b));
    }
    if let Some(folder) = words.get(1) {
        folder_rows(folder, &mut b);
    }
    let found = series_rows(&mut b);
    println!("\n| records | bytes | port, µs | Rust, µs | port / Rust |\n|---|---|---|---|---|");
    let found = found + &sections::rows();
    println!("\n| codes | bytes | port, µs | Rust, µs | port / Rust | port, ns a byte |\n|---|---|---|---|---|---|");
    let found = found + &codes::rows();
    std::fs::write(points, found).unwrap_or_else(|e| stop(format!("{points}: {e}; give a file that can be written")));
}
