//! The verdicts on many pairs as lines of text, JSON, CSV or a report in JUnit's form. None of them holds a time, so that one batch gives
//! the same bytes always.

use super::Judged;
use crate::failure::shown;
use crate::numbers::title;
use csv::Terminator;
use quick_xml::events::{BytesDecl, BytesText, Event};
use quick_xml::Writer;
use serde_json::json;

#[derive(Clone, Copy, PartialEq, Eq)]
pub enum Format {
    Text,
    Json,
    Csv,
    Junit,
}

/// What comes before the lines of the pairs.
pub fn head(format: Format) -> Vec<u8> {
    match format {
        Format::Csv => csv_line(&["stage", "reference", "number", "file", "at", "word", "title", "error"]),
        _ => Vec::new(),
    }
}

/// The line of a pair; of a report in JUnit's form there is none.
pub fn line(format: Format, judged: &Judged) -> Vec<u8> {
    match format {
        Format::Text => text_line(judged),
        Format::Json => json_line(judged),
        Format::Csv => {
            let [stage, reference] = names(judged);
            let [verdict, called, error] = match &judged.verdict {
                Ok(verdict) => [verdict.numbers().map(|n| n.to_string()).join(" "), title(verdict.number).into(), String::new()],
                Err(words) => ["   ".into(), "not read".into(), words.clone()],
            };
            let mut fields = vec![stage.as_str(), &reference];
            fields.extend(verdict.split(' '));
            fields.extend([called.as_str(), &error]);
            csv_line(&fields)
        }
        Format::Junit => Vec::new(),
    }
}

fn names(judged: &Judged) -> [String; 2] {
    [&judged.named.stage, &judged.named.reference].map(|path| path.to_string_lossy().into_owned())
}

fn text_line(judged: &Judged) -> Vec<u8> {
    let stage = shown(&judged.named.stage);
    let mut line = match &judged.verdict {
        Ok(verdict) if verdict.accepts() => format!("{:<12} {stage}\n", verdict.to_string()),
        Ok(verdict) => format!("{:<12} {stage}: {}\n", verdict.to_string(), title(verdict.number)),
        Err(words) => format!("{:<12} {stage}: not read: {words}\n", "- - - -"),
    };
    // The explanation begins with the verdict, which stands in the line already.
    for more in judged.explained.iter().flat_map(|text| text.lines().skip(1)) {
        line += more;
        line.push('\n');
    }
    line.into_bytes()
}

fn json_line(judged: &Judged) -> Vec<u8> {
    let [stage, reference] = names(judged);
    let mut value = match &judged.verdict {
        Ok(verdict) => json!({
            "stage": stage, "reference": reference, "accepted": verdict.accepts(), "number": verdict.number, "file": verdict.file,
            "at": verdict.at, "word": verdict.word, "title": title(verdict.number),
        }),
        Err(words) => json!({ "stage": stage, "reference": reference, "error": words }),
    };
    if let Some(text) = &judged.explained {
        value["explanation"] = text.as_str().into();
    }
    format!("{value}\n").into_bytes()
}

fn csv_line(fields: &[&str]) -> Vec<u8> {
    let mut writer = csv::WriterBuilder::new().terminator(Terminator::Any(b'\n')).from_writer(Vec::new());
    writer.write_record(fields).expect("a vector takes all");
    writer.into_inner().expect("a vector takes all")
}

/// All pairs as one report: a refused pair is a failure, one that could not be read an error.
pub fn junit(all: &[Judged]) -> Vec<u8> {
    let refused = all.iter().filter(|judged| judged.verdict.as_ref().is_ok_and(|verdict| !verdict.accepts())).count();
    let unread = all.iter().filter(|judged| judged.verdict.is_err()).count();
    let counts = [all.len(), refused, unread].map(|count| count.to_string());
    let mut writer = Writer::new_with_indent(Vec::new(), b' ', 2);
    writer.write_event(Event::Decl(BytesDecl::new("1.0", Some("UTF-8"), None))).expect("a vector takes all");
    let suites = writer.create_element("testsuites");
    let written = suites.write_inner_content(|writer| {
        let suite = writer.create_element("testsuite").with_attributes([
            ("name", "ncl"),
            ("tests", counts[0].as_str()),
            ("failures", counts[1].as_str()),
            ("errors", counts[2].as_str()),
        ]);
        suite.write_inner_content(|writer| all.iter().try_for_each(|judged| case(writer, judged)))?;
        Ok(())
    });
    written.expect("a vector takes all");
    let mut bytes = writer.into_inner();
    bytes.push(b'\n');
    bytes
}

fn case(writer: &mut Writer<Vec<u8>>, judged: &Judged) -> quick_xml::Result<()> {
    let name = legal(&shown(&judged.named.stage));
    let case = writer.create_element("testcase").with_attributes([("classname", "ncl.check"), ("name", name.as_str())]);
    match &judged.verdict {
        Ok(verdict) if verdict.accepts() => case.write_empty()?,
        Ok(verdict) => case.write_inner_content(|writer| {
            let message = format!("{verdict}: {}", title(verdict.number));
            let number = verdict.number.to_string();
            let failure = writer.create_element("failure");
            let failure = failure.with_attributes([("type", number.as_str()), ("message", message.as_str())]);
            match &judged.explained {
                Some(text) => failure.write_text_content(BytesText::new(&legal_lines(text)))?,
                None => failure.write_empty()?,
            };
            Ok(())
        })?,
        Err(words) => case.write_inner_content(|writer| {
            let words = legal(words);
            writer.create_element("error").with_attribute(("message", words.as_str())).write_empty()?;
            Ok(())
        })?,
    };
    Ok(())
}

/// Signs that XML does not have, as one that says so.
fn legal(words: &str) -> String {
    words.chars().map(|sign| if sign.is_control() || matches!(sign, '\u{FFFE}' | '\u{FFFF}') { '\u{FFFD}' } else { sign }).collect()
}

/// The same of several lines.
fn legal_lines(text: &str) -> String {
    text.lines().map(legal).collect::<Vec<String>>().join("\n")
}
