//! Inputs that a reader could take too long over, of any size.

/// A hostile input: its name, and how it is made.
pub struct Hostile {
    /// What it is, in words.
    pub name: &'static str,
    front: &'static [u8],
    again: &'static [u8],
    back: &'static [u8],
}

/// Every hostile input.
pub const ALL: &[Hostile] = &[
    Hostile {
        name: "all line feeds",
        front: b"",
        again: b"\n",
        back: b"",
    },
    Hostile {
        name: "one endless line of blanks",
        front: b"",
        again: b" ",
        back: b"\n",
    },
    Hostile {
        name: "open groups in costs",
        front: b"",
        again: b"2024-01-01 *\n A:B 1 X {((((((((((((((((((((((((((((((((\n",
        back: b"",
    },
    Hostile {
        name: "open groups in metadata",
        front: b"",
        again: b"2024-01-01 *\n k: ((((((((((((((((((((((((((((((((1\n",
        back: b"",
    },
    Hostile {
        name: "open quotes",
        front: b"",
        again: b"option \"a\n",
        back: b"",
    },
    Hostile {
        name: "one endless string",
        front: b"option \"",
        again: b"a",
        back: b"\n",
    },
    Hostile {
        name: "one endless string of lines",
        front: b"option \"",
        again: b"option a\n",
        back: b"",
    },
    Hostile {
        name: "one endless literal",
        front: b"2024-01-01 price A 0.",
        again: b"0",
        back: b" A\n",
    },
    Hostile {
        name: "one endless sum",
        front: b"2024-01-01 price A 0",
        again: b"+0",
        back: b" A\n",
    },
    Hostile {
        name: "tags without end",
        front: b"2024-01-01 *",
        again: b" #a",
        back: b"\n",
    },
    Hostile {
        name: "currencies without end, dropped",
        front: b"2024-01-01 open A:B A",
        again: b",A",
        back: b" x\n",
    },
    Hostile {
        name: "an account without end",
        front: b"2024-01-01 open A",
        again: b":A",
        back: b"\n",
    },
    Hostile {
        name: "metadata without end",
        front: b"2024-01-01 *\n",
        again: b" k: 1\n",
        back: b"",
    },
];

impl Hostile {
    /// The input of so many bytes, or a few less.
    pub fn bytes(&self, size: usize) -> Vec<u8> {
        let room = size.saturating_sub(self.front.len() + self.back.len());
        let times = room / self.again.len().max(1);
        [self.front, &self.again.repeat(times), self.back].concat()
    }
}

#[cfg(test)]
mod tests {
    use super::ALL;

    #[test]
    fn twice_the_size_is_twice_the_bytes() {
        for input in ALL {
            let (one, two) = (input.bytes(100_000).len(), input.bytes(200_000).len());
            assert!(
                one <= 100_000 && two <= 200_000 && two.abs_diff(2 * one) < 200,
                "{}",
                input.name
            );
        }
    }

    #[test]
    fn none_is_refused_before_its_end() {
        for input in ALL {
            let got = lumbrisse::read_to_vec(&input.bytes(50_000));
            assert!(got.is_ok(), "{}: {got:?}", input.name);
        }
    }
}
