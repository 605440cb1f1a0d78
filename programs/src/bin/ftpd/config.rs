//! A configuration file: TOML with the names of the options, and `folder` for the folder.
use clap::parser::ValueSource;
use clap::{ArgAction, ArgMatches, Command};
use std::ffi::OsString;
use std::fs;
use std::io::{self, ErrorKind};
use std::path::Path;
use toml::Value;

/// The options that only the command line has.
const NOT_IN_FILE: [&str; 6] = ["config", "check", "hash-password", "rounds", "help", "version"];

/// The words of a command line that say what a file does, but for what the command line says itself.
///
/// # Errors
///
/// Where the file can't be read, is no TOML, or has what is no option.
pub fn words(command: &Command, given: &ArgMatches, file: &Path) -> io::Result<Vec<OsString>> {
    let named = file.display();
    let text = fs::read_to_string(file);
    let text = text.map_err(|error| io::Error::new(error.kind(), format!("{named}: {error}")))?;
    let invalid =
        |fault: String| io::Error::new(ErrorKind::InvalidData, format!("{named}: {fault}"));
    let table: toml::value::Table =
        toml::from_str(&text).map_err(|error| invalid(error.to_string()))?;
    let mut words = Vec::new();
    for (name, value) in table {
        let id = if name == "folder" { "FOLDER" } else { &name };
        let argument = command.get_arguments().find(|it| it.get_id() == id);
        let argument = argument.filter(|it| !NOT_IN_FILE.contains(&it.get_id().as_str()));
        let argument = argument.ok_or_else(|| invalid(format!("{name} is no option")))?;
        if given.value_source(id) != Some(ValueSource::CommandLine) {
            let is_flag = matches!(argument.get_action(), ArgAction::SetTrue);
            let said = said(&name, id == "FOLDER", is_flag, value);
            words.extend(said.ok_or_else(|| invalid(format!("{name} has another kind of value")))?);
        }
    }
    Ok(words)
}

/// The words that say a value, where it is of the kind of its option.
fn said(name: &str, is_folder: bool, is_flag: bool, value: Value) -> Option<Vec<OsString>> {
    let word = |text: String| match is_folder {
        true => OsString::from(text),
        false => OsString::from(format!("--{name}={text}")),
    };
    Some(match value {
        Value::Boolean(is_on) if is_flag => {
            let flag = is_on.then(|| OsString::from(format!("--{name}")));
            flag.into_iter().collect()
        }
        Value::String(text) if !is_flag => vec![word(text)],
        Value::Integer(number) if !is_flag && !is_folder => vec![word(number.to_string())],
        Value::Array(values) if !is_flag && !is_folder => {
            let texts = values.into_iter().map(|it| it.as_str().map(str::to_string));
            texts.map(|text| text.map(word)).collect::<Option<Vec<_>>>()?
        }
        _ => return None,
    })
}
