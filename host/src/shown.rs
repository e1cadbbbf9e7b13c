use std::ffi::OsStr;
use std::fmt::Write;
use std::path::Path;

/// A file's name as it is shown: in one line, and no two names alike. Control characters and `\` are written as in a string
/// of Rust, bytes that are not UTF-8 as `\x` and two digits.
///
/// ```
/// assert_eq!(vmd::shown("leap\n.vmd"), r"leap\n.vmd");
/// ```
pub fn shown(name: impl AsRef<Path>) -> String {
    let name: &OsStr = name.as_ref().as_os_str();
    let mut text = String::new();
    for chunk in name.as_encoded_bytes().utf8_chunks() {
        for char in chunk.valid().chars() {
            match char {
                '\\' | '\u{2028}' | '\u{2029}' => text.extend(char.escape_default()),
                _ if char.is_control() => text.extend(char.escape_default()),
                _ => text.push(char),
            }
        }
        chunk.invalid().iter().for_each(|byte| write!(text, "\\x{byte:02x}").expect("a string takes all"));
    }
    text
}
