//! The text that the program prints.

use crate::door;

/// Most texts fit into so many bytes.
const FIRST_ROOM: usize = 4_096;

/// The text that the program notchergrey prints for this script, with its table of 3,000 rows. A refused script has a
/// text too: the line that says so.
///
/// ```
/// assert_eq!(notchergrey::report(b""), "refused 1 0\n");
/// ```
pub fn report(script: &[u8]) -> String {
    let mut text = vec![0; FIRST_ROOM];
    let (length, written) = door::report(script, &mut text);
    text.resize(length, 0);
    if !written {
        door::report(script, &mut text);
    }
    String::from_utf8(text).expect("the text is of ASCII letters")
}
