//! Pictures of eight bits a colour, as PPM or as PNG.

use crate::output::Output;
use crate::problem::Problem;
use crate::standard;

#[derive(Clone, Copy, Debug, PartialEq, Eq)]
pub enum Kind {
    Ppm,
    Png,
}

impl Kind {
    /// By the ending of the file's name. Standard output has none, and PPM is what programs hand to each other.
    pub fn of(name: &str) -> Result<Kind, Problem> {
        let name_of = name.to_ascii_lowercase();
        if name_of.ends_with(".ppm") || name == standard::WORD {
            Ok(Kind::Ppm)
        } else if name_of.ends_with(".png") {
            Ok(Kind::Png)
        } else {
            let what = format!("{name} ends in neither .ppm nor .png");
            Err(Problem::Usage(what))
        }
    }
}

/// Red, green and blue of each point, in raster order.
#[derive(Clone, Debug, PartialEq, Eq)]
pub struct Picture {
    pub width: usize,
    pub height: usize,
    pub bytes: Vec<u8>,
}

impl Picture {
    /// Of the colour that each row and column has.
    pub fn form(width: usize, height: usize, colour: impl Fn(usize, usize) -> [u8; 3]) -> Self {
        let points = (0..height).flat_map(|row| (0..width).map(move |column| (row, column)));
        Picture {
            width,
            height,
            bytes: points
                .flat_map(|(row, column)| colour(row, column))
                .collect(),
        }
    }

    pub fn save(&self, kind: Kind, to: &Output) -> Result<(), Problem> {
        let file = match kind {
            Kind::Ppm => self.ppm(),
            Kind::Png => self.png(),
        };
        to.write(&file)
    }

    pub fn ppm(&self) -> Vec<u8> {
        let mut file = format!("P6\n{} {}\n255\n", self.width, self.height).into_bytes();
        file.extend(&self.bytes);
        file
    }

    pub fn png(&self) -> Vec<u8> {
        let mut header = Vec::new();
        header.extend((self.width as u32).to_be_bytes());
        header.extend((self.height as u32).to_be_bytes());
        // eight bits, red green blue, deflate, the one set of filters, no interlace
        header.extend([8, 2, 0, 0, 0]);
        // each row after its filter: none
        let rows = self.bytes.chunks(3 * self.width);
        let lines: Vec<u8> = rows.flat_map(|row| [&[0], row].concat()).collect();
        let mut file = b"\x89PNG\r\n\x1a\n".to_vec();
        chunk(&mut file, b"IHDR", &header);
        chunk(&mut file, b"IDAT", &stored(&lines));
        chunk(&mut file, b"IEND", &[]);
        file
    }
}

fn chunk(file: &mut Vec<u8>, name: &[u8; 4], data: &[u8]) {
    file.extend((data.len() as u32).to_be_bytes());
    let start = file.len();
    file.extend(name);
    file.extend(data);
    let check = crc(&file[start..]);
    file.extend(check.to_be_bytes());
}

/// A zlib stream of stored blocks: nothing is compressed.
fn stored(data: &[u8]) -> Vec<u8> {
    let mut stream = vec![0x78, 0x01];
    let mut blocks = data.chunks(0xffff).peekable();
    while let Some(block) = blocks.next() {
        stream.push(u8::from(blocks.peek().is_none()));
        stream.extend((block.len() as u16).to_le_bytes());
        stream.extend((!(block.len() as u16)).to_le_bytes());
        stream.extend(block);
    }
    stream.extend(adler(data).to_be_bytes());
    stream
}

/// CRC-32 of PNG chunks.
fn crc(bytes: &[u8]) -> u32 {
    let step = |rest: u32| (rest >> 1) ^ (0xedb8_8320 * (rest & 1));
    let mut table = [0; 256];
    for (byte, entry) in (0..).zip(&mut table) {
        *entry = (0..8).fold(byte, |rest, _| step(rest));
    }
    let next = |sum: u32, &byte: &u8| table[usize::from(sum as u8 ^ byte)] ^ (sum >> 8);
    !bytes.iter().fold(!0, next)
}

/// Adler-32 of zlib streams.
fn adler(bytes: &[u8]) -> u32 {
    let next = |(a, b): (u32, u32), &byte: &u8| {
        let a = (a + u32::from(byte)) % 65_521;
        (a, (b + a) % 65_521)
    };
    let (a, b) = bytes.iter().fold((1, 0), next);
    b << 16 | a
}
