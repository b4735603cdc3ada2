//! The smallest text that still has a property: without lines, then without bytes, then with plainer bytes.

/// Takes away what the property does not need.
pub fn shrunk(text: &[u8], mut still: impl FnMut(&[u8]) -> bool) -> Vec<u8> {
    let mut best = text.to_vec();
    loop {
        let before = best.clone();
        let lines: Vec<Vec<u8>> = best
            .split_inclusive(|b| *b == b'\n')
            .map(<[u8]>::to_vec)
            .collect();
        best = without(lines, &mut still).concat();
        let bytes = best.iter().map(|b| vec![*b]).collect();
        best = without(bytes, &mut still).concat();
        plainer(&mut best, &mut still);
        if best == before {
            return best;
        }
    }
}

/// So many parts and fewer are dropped from any part on.
const FEW: usize = 12;

/// Drops parts, many at a time and then fewer.
fn without(mut parts: Vec<Vec<u8>>, still: &mut impl FnMut(&[u8]) -> bool) -> Vec<Vec<u8>> {
    let mut width = parts.len().div_ceil(2);
    while width > 0 {
        let step = if width > FEW { width } else { 1 };
        let mut at = 0;
        while at < parts.len() {
            let mut fewer = parts.clone();
            fewer.drain(at..(at + width).min(parts.len()));
            if still(&fewer.concat()) {
                parts = fewer;
            } else {
                at += step;
            }
        }
        width = if width > FEW { width / 2 } else { width - 1 };
    }
    parts
}

/// Puts a plainer byte of the same class in a byte's place.
fn plainer(bytes: &mut Vec<u8>, still: &mut impl FnMut(&[u8]) -> bool) {
    for at in 0..bytes.len() {
        let plain = match bytes.get(at) {
            Some(b'2'..=b'9' | b'0') => b'1',
            Some(b'B'..=b'Z') => b'A',
            Some(b'b'..=b'z') => b'a',
            Some(b'\t') => b' ',
            _ => continue,
        };
        let mut tried = bytes.clone();
        tried.splice(at..=at, [plain]);
        if still(&tried) {
            *bytes = tried;
        }
    }
}

#[cfg(test)]
mod tests {
    use super::shrunk;

    #[test]
    fn only_what_is_needed_is_left() {
        let ledger = b"one\ntwo 9 x\nthree\nfour \" five\n";
        let found = shrunk(ledger, |s| {
            s.contains(&b'"') && s.iter().any(u8::is_ascii_digit)
        });
        assert_eq!(found, b"1\"");
    }
}
