//! Writing of stage and reference files, hexadecimal text, and the folders in
//! which example pairs are stored.

use crate::judge::{
    Boolean, Gate, Part, Pipeline, Reference, Report, Stage, Verdict, ABSENT, ACCEPTED, NOT,
};
use std::fs;
use std::io::{self, Read};
use std::path::{Path, PathBuf};

/// "At most 8,192 bytes of each."
pub const MOST_BYTES_READ: u64 = 8_192;

/// The two files that a verdict is given on.
#[derive(Clone, PartialEq, Eq, Debug)]
pub struct FilePair {
    pub stage: Vec<u8>,
    pub reference: Vec<u8>,
}

fn put_u16(bytes: &mut Vec<u8>, value: usize) {
    let value = u16::try_from(value).expect("an operand is a u16");
    bytes.extend(value.to_le_bytes());
}

/// The gate command of a stage file.
pub fn stage_gate(gate: &Gate) -> Vec<u8> {
    let mut bytes = vec![0x02, gate.kind as u8];
    for pin in 0..4 {
        put_u16(&mut bytes, gate.pins.get(pin).copied().unwrap_or(ABSENT));
    }
    bytes
}

/// The output command of a stage file.
pub fn stage_output(rails: [usize; 2]) -> Vec<u8> {
    let mut bytes = vec![0x03];
    put_u16(&mut bytes, rails[0]);
    put_u16(&mut bytes, rails[1]);
    bytes
}

/// The care command of a stage file.
pub fn care_word(word: u64) -> Vec<u8> {
    let mut bytes = vec![0x06];
    put_u16(&mut bytes, word as usize);
    bytes
}

/// The command of a register or of a C-element.
pub fn part_command(part: &Part) -> Vec<u8> {
    let mut bytes = Vec::new();
    match part {
        Part::Register { data, ki } => {
            bytes.push(0x04);
            for net in [data[0], data[1], *ki] {
                put_u16(&mut bytes, net);
            }
        }
        Part::Element { pins } => {
            bytes.push(0x05);
            for pin in 0..4 {
                put_u16(&mut bytes, pins.get(pin).copied().unwrap_or(ABSENT));
            }
        }
    }
    bytes
}

/// The gate command of a reference file.
pub fn reference_gate(gate: &Boolean) -> Vec<u8> {
    let mut bytes = vec![0x11, gate.operation as u8];
    put_u16(&mut bytes, gate.operands[0]);
    if gate.operation == NOT {
        put_u16(&mut bytes, ABSENT);
    } else {
        put_u16(&mut bytes, gate.operands[1]);
    }
    bytes
}

/// The output command of a reference file.
pub fn reference_output(signal: usize) -> Vec<u8> {
    let mut bytes = vec![0x12];
    put_u16(&mut bytes, signal);
    bytes
}

/// The commands between inputs and end: gates first, then outputs.
pub fn stage_commands(stage: &Stage) -> (Vec<Vec<u8>>, Vec<Vec<u8>>) {
    (
        stage.gates.iter().map(stage_gate).collect(),
        stage
            .outputs
            .iter()
            .map(|&rails| stage_output(rails))
            .collect(),
    )
}

pub fn reference_commands(reference: &Reference) -> (Vec<Vec<u8>>, Vec<Vec<u8>>) {
    (
        reference.gates.iter().map(reference_gate).collect(),
        reference
            .outputs
            .iter()
            .map(|&signal| reference_output(signal))
            .collect(),
    )
}

/// A whole file from its count of inputs and the commands between inputs and end.
pub fn file_of(inputs: usize, commands: &[Vec<u8>]) -> Vec<u8> {
    let mut bytes = vec![0x01, inputs as u8];
    for command in commands {
        bytes.extend(command);
    }
    bytes.push(0x00);
    bytes
}

/// A stage file: the care list, then all gates, then all outputs.
pub fn write_stage(stage: &Stage) -> Vec<u8> {
    let mut commands: Vec<Vec<u8>> = stage.care.iter().map(|&word| care_word(word)).collect();
    let (gates, outputs) = stage_commands(stage);
    commands.extend(gates);
    commands.extend(outputs);
    file_of(stage.inputs, &commands)
}

/// A stage file with registers and C-elements: the care list, gates, these, outputs.
pub fn write_pipeline(pipeline: &Pipeline) -> Vec<u8> {
    let stage = &pipeline.raw;
    let mut commands: Vec<Vec<u8>> = stage.care.iter().map(|&word| care_word(word)).collect();
    let (gates, outputs) = stage_commands(stage);
    commands.extend(gates);
    commands.extend(pipeline.parts.iter().map(part_command));
    commands.extend(outputs);
    file_of(stage.inputs, &commands)
}

/// A reference file with all gates before all outputs.
pub fn write_reference(reference: &Reference) -> Vec<u8> {
    let (mut commands, outputs) = reference_commands(reference);
    commands.extend(outputs);
    file_of(reference.inputs, &commands)
}

pub fn write_pair(stage: &Stage, reference: &Reference) -> FilePair {
    FilePair {
        stage: write_stage(stage),
        reference: write_reference(reference),
    }
}

/// Bytes as the papers print them: two capital digits each, single spaces.
pub fn hex(bytes: &[u8]) -> String {
    bytes
        .iter()
        .map(|byte| format!("{byte:02X}"))
        .collect::<Vec<_>>()
        .join(" ")
}

/// The bytes that such a text stands for; white space is free.
pub fn unhex(text: &str) -> Vec<u8> {
    let digits: String = text.split_whitespace().collect();
    assert!(
        digits.is_ascii() && digits.len().is_multiple_of(2),
        "pairs of hexadecimal digits"
    );
    (0..digits.len() / 2)
        .map(|i| u8::from_str_radix(&digits[2 * i..2 * i + 2], 16).expect("hexadecimal"))
        .collect()
}

/// "The four numbers with single spaces and a newline."
pub fn verdict_line(verdict: Verdict) -> String {
    let [number, file, at, word] = verdict;
    format!("{number} {file} {at} {word}\n")
}

pub fn verdict_from_line(line: &str) -> Option<Verdict> {
    let numbers: Vec<u64> = line
        .strip_suffix('\n')?
        .split(' ')
        .map(|number| number.parse().ok())
        .collect::<Option<_>>()?;
    let verdict = numbers.try_into().ok()?;
    (verdict_line(verdict) == line).then_some(verdict)
}

/// What `ncl_report` prints: a line for each word and the total, or the verdict of a refused
/// pair.
pub fn report_text(report: &Report) -> String {
    if report.verdict != ACCEPTED {
        return verdict_line(report.verdict);
    }
    let mut text = String::new();
    for (word, high) in &report.lines {
        text += &format!("{word} {high}\n");
    }
    text + &format!("total {}\n", report.total)
}

/// A file as the program takes it: a missing file counts as empty, and at most
/// 8,192 bytes are read.
pub fn as_the_program_reads(path: &Path) -> io::Result<Vec<u8>> {
    let mut bytes = Vec::new();
    match fs::File::open(path) {
        Ok(file) => {
            file.take(MOST_BYTES_READ).read_to_end(&mut bytes)?;
        }
        Err(error) if error.kind() == io::ErrorKind::NotFound => {}
        Err(error) => return Err(error),
    }
    Ok(bytes)
}

/// The folder of the stored example pairs.
pub fn examples_folder() -> PathBuf {
    Path::new(env!("CARGO_MANIFEST_DIR")).join("../examples")
}

/// The files that hold a stored pair's verdict in each of the two orders of words.
const VERDICTS: [&str; 2] = ["verdict", "verdict.lowest"];

/// Stores a pair as NAME/stage.ncl and reference.ncl, and its verdicts in both orders of words.
pub fn store_example(
    folder: &Path,
    name: &str,
    pair: &FilePair,
    verdicts: [Verdict; 2],
) -> io::Result<()> {
    let folder = folder.join(name);
    fs::create_dir_all(&folder)?;
    fs::write(folder.join("stage.ncl"), &pair.stage)?;
    fs::write(folder.join("reference.ncl"), &pair.reference)?;
    for (file, verdict) in VERDICTS.iter().zip(verdicts) {
        fs::write(folder.join(file), verdict_line(verdict))?;
    }
    Ok(())
}

/// Where the stored texts are, in the folder of the stored pairs.
const TEXTS: &str = "text";

/// Where modules in Verilog are, which the tests of the command make references of.
const MODULES: &str = "verilog";

/// Where the stored pairs with registers are, in the same folder.
const PIPELINES: &str = "pipelines";

/// The folder of the stored pairs with registers.
pub fn pipelines_folder(folder: &Path) -> PathBuf {
    folder.join(PIPELINES)
}

/// Stores a text as text/NAME/stage.txt, its verdict, and the stage file that it gives where it reads.
pub fn store_text(
    folder: &Path,
    name: &str,
    text: &[u8],
    read: &Result<Vec<u8>, Verdict>,
) -> io::Result<()> {
    let folder = folder.join(TEXTS).join(name);
    fs::create_dir_all(&folder)?;
    fs::write(folder.join("stage.txt"), text)?;
    let verdict = match read {
        Ok(stage) => {
            fs::write(folder.join("stage.ncl"), stage)?;
            ACCEPTED
        }
        Err(verdict) => *verdict,
    };
    fs::write(folder.join("verdict"), verdict_line(verdict))
}

/// A stored text with its verdict, or the stage file that it gives.
pub fn load_text(folder: &Path, name: &str) -> io::Result<(Vec<u8>, Result<Vec<u8>, Verdict>)> {
    let folder = folder.join(TEXTS).join(name);
    let text = fs::read(folder.join("stage.txt"))?;
    let line = fs::read_to_string(folder.join("verdict"))?;
    let verdict = verdict_from_line(&line)
        .ok_or_else(|| io::Error::new(io::ErrorKind::InvalidData, "four numbers expected"))?;
    Ok((
        text,
        match verdict {
            ACCEPTED => Ok(fs::read(folder.join("stage.ncl"))?),
            _ => Err(verdict),
        },
    ))
}

/// The names of all stored texts, in order.
pub fn stored_texts(folder: &Path) -> io::Result<Vec<String>> {
    folders_in(&folder.join(TEXTS))
}

/// The names of all stored pairs, in order.
pub fn stored_examples(folder: &Path) -> io::Result<Vec<String>> {
    let mut names = folders_in(folder)?;
    names.retain(|name| name != TEXTS && name != MODULES && name != PIPELINES);
    Ok(names)
}

fn folders_in(folder: &Path) -> io::Result<Vec<String>> {
    let mut names = Vec::new();
    for entry in fs::read_dir(folder)? {
        let entry = entry?;
        if entry.file_type()?.is_dir() {
            names.push(entry.file_name().into_string().expect("a plain name"));
        }
    }
    names.sort();
    Ok(names)
}

/// A stored pair with its verdicts in both orders of words.
pub fn load_example(folder: &Path, name: &str) -> io::Result<(FilePair, [Verdict; 2])> {
    let folder = folder.join(name);
    let stage = fs::read(folder.join("stage.ncl"))?;
    let reference = fs::read(folder.join("reference.ncl"))?;
    let mut verdicts = [ACCEPTED; 2];
    for (file, verdict) in VERDICTS.iter().zip(&mut verdicts) {
        let line = fs::read_to_string(folder.join(file))?;
        *verdict = verdict_from_line(&line)
            .ok_or_else(|| io::Error::new(io::ErrorKind::InvalidData, "four numbers expected"))?;
    }
    Ok((FilePair { stage, reference }, verdicts))
}
