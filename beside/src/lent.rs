//! Bytes to lend to the engine, with marked bytes before and behind that it must
//! not touch, and the naming of a byte that differs.

use second::image::name;

/// Odd, so that what is lent begins at an odd address.
const MARGIN: usize = 61;
const MARK: u8 = 0xa5;

pub struct Lent {
    bytes: Vec<u8>,
}

impl Lent {
    pub fn of(bytes: &[u8]) -> Lent {
        let margin = [MARK; MARGIN];
        Lent {
            bytes: [&margin[..], bytes, &margin].concat(),
        }
    }

    pub fn filled(length: usize, byte: u8) -> Lent {
        Lent::of(&vec![byte; length])
    }

    pub fn bytes(&self) -> &[u8] {
        &self.bytes[MARGIN..self.bytes.len() - MARGIN]
    }

    pub fn bytes_mut(&mut self) -> &mut [u8] {
        let end = self.bytes.len() - MARGIN;
        &mut self.bytes[MARGIN..end]
    }

    pub fn margins(&self) -> Result<(), String> {
        let (before, rest) = self.bytes.split_at(MARGIN);
        let behind = &rest[rest.len() - MARGIN..];
        if before.iter().chain(behind).all(|&byte| byte == MARK) {
            Ok(())
        } else {
            Err("bytes outside the lent ones were written".to_string())
        }
    }
}

/// The first byte of a world that differs, by its place.
pub fn same_world(engine: &[u8], expected: &[u8], of: &str) -> Result<(), String> {
    if engine == expected {
        return Ok(());
    }
    if engine.len() != expected.len() {
        return Err(format!(
            "{} bytes, {of} has {}",
            engine.len(),
            expected.len()
        ));
    }
    let differs = |&at: &usize| engine[at] != expected[at];
    let differing: Vec<usize> = (0..engine.len()).filter(differs).collect();
    let at = differing[0];
    Err(format!(
        "{}: the engine has {}, {of} {}; {} bytes differ",
        name(at),
        engine[at],
        expected[at],
        differing.len()
    ))
}

pub fn same<T: PartialEq + std::fmt::Debug>(
    what: &str,
    engine: T,
    expected: T,
) -> Result<(), String> {
    if engine == expected {
        Ok(())
    } else {
        Err(format!(
            "{what}: the engine has {engine:?}, the second program {expected:?}"
        ))
    }
}
