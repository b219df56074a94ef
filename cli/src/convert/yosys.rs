//! Verilog through yosys: it reads the design, makes one module of it, and hands it on as BLIF. Nothing it does is judged by itself: what comes of it is
//! checked as every file is.

use super::verilog::boxes;
use crate::failure::{shown, Failure, Outcome};
use crate::tools::Tool;
use std::path::{Path, PathBuf};

pub const YOSYS: Tool = Tool { name: "yosys", package: "yosys", without: "BLIF is taken without it, from whatever program writes it" };

/// What is made of a design.
#[derive(Clone, Copy, PartialEq, Eq, Debug)]
pub enum Into {
    /// Boolean gates, for a reference.
    Gates,
    /// The threshold cells as they stand, for a stage.
    Cells,
}

/// What yosys says of a design that it takes all the same, and that no stage can have.
const BARRED: [(&str, &str); 1] = [("tri-state", "a net of it may be driven by nobody (tri-state), which a stage has not")];

/// A name that no program takes for an option.
fn plain(path: &Path) -> PathBuf {
    if path.is_absolute() {
        path.into()
    } else {
        Path::new(".").join(path)
    }
}

/// The BLIF of a Verilog file, and what yosys said about it. The top module is the one that is named, or the one that no other uses.
pub fn blif(path: &Path, top: Option<&str>, into: Into) -> Outcome<(String, Vec<String>)> {
    let top = match top {
        // A name goes into a line of a script.
        Some(name) if name.is_empty() || !name.chars().all(|sign| sign.is_ascii_alphanumeric() || "_$.".contains(sign)) => {
            return Err(Failure::says(format!("--top: '{}' is no name of a module", super::printable(name))));
        }
        Some(name) => format!("-top {name}"),
        None => "-auto-top".into(),
    };
    let checked = format!("hierarchy -check {top}\nproc\nflatten\ncheck -assert\n");
    let script = match into {
        Into::Gates => format!("{checked}synth -flatten\nabc -g AND,OR,XOR,NAND,NOR\nopt_clean\nwrite_blif\n"),
        Into::Cells => format!("read_verilog -lib -overwrite <<CELLS\n{}CELLS\n{checked}write_blif -cname\n", boxes()),
    };
    let file = plain(path);
    // By its name yosys would take a file in capitals for a script.
    let system = path.extension().is_some_and(|ending| ending.eq_ignore_ascii_case("sv"));
    let reader = if system { "verilog -sv" } else { "verilog" };
    let arguments = ["-q".as_ref(), "-f".as_ref(), reader.as_ref(), file.as_os_str(), "-s".as_ref(), "/dev/stdin".as_ref()];
    let ran = YOSYS.ran(&arguments, script.as_bytes())?;
    let name = shown(path);
    let said: Vec<String> = ran.said().into_iter().filter(|line| !line.contains("'check -assert'")).collect();
    if !ran.success {
        let undriven: Vec<&str> =
            said.iter().filter_map(|line| line.strip_suffix(" is used but has no driver.")).filter_map(wire).collect();
        if !undriven.is_empty() {
            return Err(Failure::says(format!("{name}: nothing drives {}, which is used", undriven.join(" and "))));
        }
        return Err(Failure::says(format!("{name}: yosys does not take it:\n  {}", said.join("\n  "))));
    }
    for (sign, words) in BARRED {
        if said.iter().any(|line| line.contains(sign)) {
            return Err(Failure::says(format!("{name}: {words}")));
        }
    }
    let text = String::from_utf8(ran.out).map_err(|_| Failure::says("yosys: what it wrote is no text"))?;
    if !text.contains(".model") {
        return Err(Failure::says(format!("{name}: has no module")));
    }
    Ok((text, said))
}

/// The wire that a warning of yosys names, without its module: `Warning: Wire m.\\a` is a.
fn wire(warning: &str) -> Option<&str> {
    let name = warning.strip_prefix("Warning: Wire ")?;
    Some(name.rsplit('\\').next().unwrap_or(name))
}
