//! PGM and PPM images, plain (P2, P3) and raw (P5, P6).

use crate::input::Input;
use crate::problem::Problem;
use bayer::SIDES;

const SIDE: u64 = *SIDES.end() as u64;

/// More bytes than an image of an admitted size has, plain ones with a number of five digits and a space for each value.
const ENOUGH: u64 = SIDE * SIDE * 3 * 6 + 65_536;

/// Values from 0 to `most`; `channels` for each point, 1 of a PGM and 3 of a PPM, in raster order.
#[derive(Clone, Debug, PartialEq, Eq)]
pub struct Image {
    pub width: usize,
    pub height: usize,
    pub channels: usize,
    pub most: u16,
    pub values: Vec<u16>,
}

pub fn load(from: Input) -> Result<Image, Problem> {
    load_within(from, ENOUGH)
}

/// The image of a file of at most so many bytes. Of a longer one the part that is read could pass for a whole image.
pub fn load_within(from: Input, most: u64) -> Result<Image, Problem> {
    let wrong = |what: String| Problem::Form(from.name().into(), what);
    let bytes = from.read(most + 1)?;
    if bytes.len() as u64 > most {
        return Err(wrong(format!("longer than {most} bytes")));
    }
    parse(&bytes).map_err(|what| wrong(what.into()))
}

/// The words of a header or of a plain image; from # to the end of a line is a comment.
struct Words<'a> {
    left: &'a [u8],
}

impl<'a> Words<'a> {
    fn next(&mut self) -> Option<&'a [u8]> {
        while let Some(&byte) = self.left.first() {
            let skipped = match byte {
                b'#' => self.left.iter().take_while(|&&byte| byte != b'\n').count(),
                _ if byte.is_ascii_whitespace() => 1,
                _ => break,
            };
            self.left = &self.left[skipped..];
        }
        let ends = |byte: &u8| byte.is_ascii_whitespace() || *byte == b'#';
        let length = self.left.iter().position(ends).unwrap_or(self.left.len());
        let (word, left) = self.left.split_at(length);
        self.left = left;
        (length > 0).then_some(word)
    }

    fn number(&mut self) -> Option<usize> {
        std::str::from_utf8(self.next()?).ok()?.parse().ok()
    }
}

/// The image, or what is wrong with it.
pub fn parse(bytes: &[u8]) -> Result<Image, &'static str> {
    let mut words = Words { left: bytes };
    let (channels, plain) = match words.next() {
        Some(b"P2") => (1, true),
        Some(b"P3") => (3, true),
        Some(b"P5") => (1, false),
        Some(b"P6") => (3, false),
        _ => return Err("neither a PGM nor a PPM"),
    };
    let mut number = || {
        words
            .number()
            .ok_or("the header has no width, height and greatest value")
    };
    let (width, height, most) = (number()?, number()?, number()?);
    let most = match u16::try_from(most) {
        Ok(most) if most > 0 => most,
        _ => return Err("the greatest value is not in 1 to 65535"),
    };
    let count = width
        .checked_mul(height)
        .and_then(|points| points.checked_mul(channels))
        .ok_or("the sides are too large")?;
    let values = if plain {
        plain_values(&mut words, count)?
    } else {
        raw_values(words.left, count, most)?
    };
    if values.iter().any(|&value| value > most) {
        return Err("a value is above the greatest value that the header tells");
    }
    Ok(Image {
        width,
        height,
        channels,
        most,
        values,
    })
}

fn plain_values(words: &mut Words, count: usize) -> Result<Vec<u16>, &'static str> {
    let mut values = Vec::new();
    while let Some(word) = words.next() {
        let value = std::str::from_utf8(word)
            .ok()
            .and_then(|word| word.parse().ok());
        values.push(value.ok_or("a value is no number from 0 to 65535")?);
    }
    if values.len() != count {
        return Err("the count of values is not that of the header");
    }
    Ok(values)
}

/// One byte or two, the high one first, after a single white space.
fn raw_values(left: &[u8], count: usize, most: u16) -> Result<Vec<u16>, &'static str> {
    let wide = most > 255;
    let bytes = left.get(1..).unwrap_or(&[]);
    if count.checked_mul(1 + usize::from(wide)) != Some(bytes.len()) {
        return Err("the count of bytes is not that of the header");
    }
    Ok(if wide {
        let pairs = bytes.chunks_exact(2);
        pairs
            .map(|pair| u16::from_be_bytes([pair[0], pair[1]]))
            .collect()
    } else {
        bytes.iter().map(|&byte| byte.into()).collect()
    })
}
