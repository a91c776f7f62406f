//! What the small program prints: the part table of a container, or its refusal.

use crate::show::part_line;
use crate::{open, LONGEST_READ};

/// Request 5: "the small program must name edition 1". A bad entry name is
/// nothing to it.
const EDITION: usize = 1;

/// The text for the bytes of standard input; every line ends with a line feed.
/// The edition in it is the file's, not the one read.
pub fn inspect(bytes: &[u8]) -> Vec<u8> {
    if bytes.len() > LONGEST_READ {
        return b"too long\n".to_vec();
    }
    let text = match open(bytes, EDITION) {
        Err(refusal) => format!("{refusal}\n"),
        Ok(opening) => {
            let mut text = format!("accepted {} {}\n", opening.file_edition, opening.parts.len());
            for part in &opening.parts {
                text.push_str(&part_line(part));
                text.push('\n');
            }
            text
        }
    };
    text.into_bytes()
}
