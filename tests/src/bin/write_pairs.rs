//! write_pairs FOLDER SEED COUNT [pipelines]: writes generated pairs of files, damaged ones among them, each as `stage.ncl` and `reference.ncl` in a folder
//! of its own; with the last word those with registers.

use fovaheju_tests::compare::Pairs;
use fovaheju_tests::generate::pair;
use fovaheju_tests::generate::pipelines::pipeline_pair;
use std::{env, fs, io, path::PathBuf};

fn main() -> io::Result<()> {
    let arguments: Vec<String> = env::args().skip(1).collect();
    let words: Vec<&str> = arguments.iter().map(String::as_str).collect();
    let ([folder, seed, count], pairs) = (match words.as_slice() {
        [files @ .., "pipelines"] => (files, pipeline_pair as Pairs),
        files => (files, pair as Pairs),
    }) else {
        let usage = "usage: write_pairs FOLDER SEED COUNT [pipelines]";
        return Err(io::Error::other(usage));
    };
    let number = |text: &str| text.parse::<u64>().map_err(io::Error::other);
    let (seed, count) = (number(seed)?, number(count)?);
    for index in 0..count {
        let files = pairs(seed, index).pair;
        let folder = PathBuf::from(folder).join(format!("{index:06}"));
        fs::create_dir_all(&folder)?;
        fs::write(folder.join("stage.ncl"), files.stage)?;
        fs::write(folder.join("reference.ncl"), files.reference)?;
    }
    Ok(())
}
