//! Names of files and parts of texts, as they are told: nothing of them acts on a terminal, and two that differ are told apart.
//!
//! In words a byte that is not shown is `\x` and two hex digits, and a backslash is two, so that the form can be read back. In
//! JSON the string is the name itself where that is UTF-8; where it is not, the string is the form for words, and a member
//! `.._bytes` beside it has the name's bytes in hex digits.

use crate::failure::Failure;
use crate::json::Object;
use serde_json::{json, Value};
use std::os::unix::ffi::OsStrExt;
use std::path::Path;
use std::str;

/// What Unicode says is not drawn (Default_Ignorable_Code_Point), and what parts lines: it can turn the order of a text, or
/// hide.
const UNDRAWN: [(char, char); 17] = [
    ('\u{ad}', '\u{ad}'),
    ('\u{34f}', '\u{34f}'),
    ('\u{61c}', '\u{61c}'),
    ('\u{115f}', '\u{1160}'),
    ('\u{17b4}', '\u{17b5}'),
    ('\u{180b}', '\u{180f}'),
    ('\u{200b}', '\u{200f}'),
    ('\u{2028}', '\u{202e}'),
    ('\u{2060}', '\u{206f}'),
    ('\u{3164}', '\u{3164}'),
    ('\u{fe00}', '\u{fe0f}'),
    ('\u{feff}', '\u{feff}'),
    ('\u{ffa0}', '\u{ffa0}'),
    ('\u{fff0}', '\u{fffb}'),
    ('\u{1bca0}', '\u{1bca3}'),
    ('\u{1d173}', '\u{1d17a}'),
    ('\u{e0000}', '\u{e0fff}'),
];

/// Whether a character is not to reach a terminal as it is.
pub fn hidden(character: char) -> bool {
    let within = |&(first, last): &(char, char)| first <= character && character <= last;
    character.is_control() || !character.is_ascii() && UNDRAWN.iter().any(within)
}

/// Bytes in words.
pub fn shown(bytes: &[u8]) -> String {
    let mut told = String::with_capacity(bytes.len());
    let mut rest = bytes;
    while !rest.is_empty() {
        let good = match str::from_utf8(rest) {
            Ok(good) => good,
            Err(error) => str::from_utf8(&rest[..error.valid_up_to()]).unwrap_or(""),
        };
        good.chars().for_each(|character| put(&mut told, character));
        rest = &rest[good.len()..];
        // What stands here now is no character: its first byte is told alone, and the rest looked at anew.
        if let Some((&byte, after)) = rest.split_first() {
            escape(&mut told, &[byte]);
            rest = after;
        }
    }
    told
}

fn put(told: &mut String, character: char) {
    if character == '\\' {
        told.push_str("\\\\");
    } else if hidden(character) {
        escape(told, character.encode_utf8(&mut [0; 4]).as_bytes());
    } else {
        told.push(character);
    }
}

fn escape(told: &mut String, bytes: &[u8]) {
    for byte in bytes {
        told.push_str("\\x");
        told.push_str(&hex(&[*byte]));
    }
}

/// A file's name in words.
pub fn name(path: &Path) -> String {
    shown(path.as_os_str().as_bytes())
}

/// Two digits a byte.
pub fn hex(bytes: &[u8]) -> String {
    const DIGITS: &[u8; 16] = b"0123456789abcdef";
    let mut text = String::with_capacity(2 * bytes.len());
    for byte in bytes {
        text.push(DIGITS[usize::from(byte >> 4)].into());
        text.push(DIGITS[usize::from(byte & 15)].into());
    }
    text
}

/// The same with spaces between bytes.
pub fn spaced(bytes: &[u8]) -> String {
    let bytes: Vec<String> = bytes.iter().map(|byte| hex(&[*byte])).collect();
    bytes.join(" ")
}

/// A string of JSON: the bytes where they are UTF-8, else their form in words.
fn string(bytes: &[u8]) -> String {
    str::from_utf8(bytes).map_or_else(|_| shown(bytes), str::to_string)
}

/// Puts bytes into an object under a key, and their hex digits beside it where they are not UTF-8.
pub fn put_bytes(object: &mut Value, key: &str, bytes: &[u8]) {
    object[key] = json!(string(bytes));
    if str::from_utf8(bytes).is_err() {
        object[format!("{key}_bytes")] = json!(hex(bytes));
    }
}

pub fn put_name(object: &mut Value, key: &str, path: &Path) {
    put_bytes(object, key, path.as_os_str().as_bytes());
}

/// The member for a name and, where that is not UTF-8, the one with `_bytes`.
pub fn member(object: &mut Object, key: &str, path: &Path) -> Result<(), Failure> {
    let name = path.as_os_str().as_bytes();
    object.member(key, &string(name))?;
    match str::from_utf8(name) {
        Ok(_) => Ok(()),
        Err(_) => object.member(&format!("{key}_bytes"), &hex(name)),
    }
}

/// The members of a list of files: the key and, where a name is not UTF-8, the one with `_bytes`.
pub fn listed<'a>(key: &str, paths: impl Iterator<Item = &'a Path>) -> Vec<(String, Value)> {
    let names: Vec<&[u8]> = paths.map(|path| path.as_os_str().as_bytes()).collect();
    let strings: Vec<String> = names.iter().map(|name| string(name)).collect();
    let mut members = vec![(key.to_string(), json!(strings))];
    if names.iter().any(|name| str::from_utf8(name).is_err()) {
        let bytes: Vec<String> = names.iter().map(|name| hex(name)).collect();
        members.push((format!("{key}_bytes"), json!(bytes)));
    }
    members
}
