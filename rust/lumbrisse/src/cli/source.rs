//! A ledger, packet or expression, and what it is called.

use std::fs::File;
use std::io::{self, Read};

use lumbrisse::SIZE_LIMIT;

use super::args::Input;
use super::shown;

/// A packet is read so far. That of a ledger is shorter: it has at most 40 bytes for each byte of the ledger.
const PACKET_LIMIT: usize = 64 * SIZE_LIMIT;

/// The bytes to read, and the name that messages give them.
pub struct Source {
    pub name: String,
    pub bytes: Vec<u8>,
}

/// A ledger or expression, or what to say where it cannot be had. At most a byte over the limit is read: enough for
/// refusal 1, whatever is behind it.
pub fn text(input: &Input) -> Result<Source, String> {
    load(input, SIZE_LIMIT.saturating_add(1))
}

/// A packet, or what to say where it cannot be had or is longer than any.
pub fn packet(input: &Input) -> Result<Source, String> {
    let source = load(input, PACKET_LIMIT.saturating_add(1))?;
    match source.bytes.len() {
        0..=PACKET_LIMIT => Ok(source),
        _ => Err(format!(
            "{} is longer than {PACKET_LIMIT} bytes: no packet of a ledger is",
            source.name
        )),
    }
}

fn load(input: &Input, most: usize) -> Result<Source, String> {
    let name = name(input);
    match bytes(input, most) {
        Ok(bytes) => Ok(Source { name, bytes }),
        Err(error) => Err(format!("cannot read {name}: {error}")),
    }
}

/// The name that messages give an input.
pub fn name(input: &Input) -> String {
    match input {
        Input::Standard => "<stdin>".to_string(),
        Input::Word(_) => "<expression>".to_string(),
        Input::File(path) => shown::text(path.as_encoded_bytes()),
    }
}

fn bytes(input: &Input, most: usize) -> io::Result<Vec<u8>> {
    match input {
        Input::Standard => limited(io::stdin().lock(), most),
        Input::Word(word) => Ok(word.as_encoded_bytes().to_vec()),
        Input::File(path) => limited(File::open(path)?, most),
    }
}

/// At most so many bytes of an input.
fn limited(from: impl Read, most: usize) -> io::Result<Vec<u8>> {
    let mut bytes = Vec::new();
    let most = u64::try_from(most).unwrap_or(u64::MAX);
    from.take(most).read_to_end(&mut bytes)?;
    Ok(bytes)
}

#[cfg(test)]
mod tests {
    use super::*;

    #[test]
    fn an_input_without_end_is_read_so_far() {
        assert_eq!(limited(io::repeat(7), 5).ok(), Some(vec![7; 5]));
        assert_eq!(limited(&b"abc"[..], 5).ok(), Some(b"abc".to_vec()));
        assert_eq!(limited(&b"abcde"[..], 5).ok(), Some(b"abcde".to_vec()));
    }
}
