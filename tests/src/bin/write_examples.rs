//! Writes all example pairs and texts with their verdicts, lists of them and a list of the joins of some
//! pairs into the folder examples/, or into the folder given, and prints the list of the pairs.

use fovaheju_tests::judge::ORDERS;
use fovaheju_tests::text::file_of_text;
use fovaheju_tests::{catalogue, files, suite};
use std::path::PathBuf;

fn main() -> std::io::Result<()> {
    let folder = std::env::args_os()
        .nth(1)
        .map_or_else(files::examples_folder, PathBuf::from);
    for example in catalogue::examples() {
        let verdicts = ORDERS.map(|order| suite::verdict_in(order, &example.pair));
        let [verdict, _] = verdicts;
        files::store_example(&folder, &example.name, &example.pair, verdicts)?;
        let mark = if verdict[0] == example.number {
            ""
        } else {
            "  NOT AS EXPECTED"
        };
        println!(
            "{:28} {:14} {}{mark}",
            example.name,
            files::verdict_line(verdict).trim_end(),
            example.about
        );
    }
    for example in catalogue::pipelines::pipelines() {
        let verdicts = ORDERS.map(|order| suite::verdict_in(order, &example.pair));
        let pipelines = files::pipelines_folder(&folder);
        files::store_example(&pipelines, &example.name, &example.pair, verdicts)?;
    }
    for example in catalogue::texts::texts() {
        let read = file_of_text(&example.text);
        files::store_text(&folder, example.name, &example.text, &read)?;
    }
    std::fs::write(folder.join("TEXTS.md"), catalogue::texts::listing())?;
    std::fs::write(folder.join("LIST.md"), catalogue::listing())?;
    std::fs::write(folder.join("PIPELINES.md"), catalogue::pipelines::listing())?;
    std::fs::write(folder.join("JOINS.md"), catalogue::joins::listing())
}
