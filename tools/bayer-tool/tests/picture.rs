//! Pictures as PPM and PNG, taken apart again.

use bayer_tool::picture::{Kind, Picture};

fn some(width: usize, height: usize) -> Picture {
    Picture::form(width, height, |row, column| {
        [row as u8, column as u8, (row * column) as u8]
    })
}

/// Name and data of each chunk.
fn chunks(mut file: &[u8]) -> Vec<(Vec<u8>, Vec<u8>)> {
    let mut found = Vec::new();
    while !file.is_empty() {
        let length = u32::from_be_bytes(file[..4].try_into().unwrap()) as usize;
        found.push((file[4..8].to_vec(), file[8..8 + length].to_vec()));
        file = &file[12 + length..];
    }
    found
}

/// The data of a zlib stream of stored blocks, and what stands behind the last block.
fn unpacked(stream: &[u8]) -> (Vec<u8>, Vec<u8>) {
    assert_eq!(stream[..2], [0x78, 0x01]);
    let (mut data, mut left) = (Vec::new(), &stream[2..]);
    loop {
        let two = |at: usize| u16::from_le_bytes([left[at], left[at + 1]]);
        let (last, length) = (left[0], two(1));
        assert_eq!(length, !two(3));
        let past = 5 + usize::from(length);
        data.extend(&left[5..past]);
        left = &left[past..];
        if last == 1 {
            return (data, left.to_vec());
        }
    }
}

#[test]
fn png_of_one_block_and_of_many() {
    for (width, height) in [(2, 2), (3, 7), (200, 109), (4096, 40)] {
        let picture = some(width, height);
        let file = picture.png();
        assert_eq!(file[..8], *b"\x89PNG\r\n\x1a\n");
        assert_eq!(file[file.len() - 12..], *b"\0\0\0\0IEND\xae\x42\x60\x82");
        let parts = chunks(&file[8..]);
        let names: Vec<&[u8]> = parts.iter().map(|part| &part.0[..]).collect();
        assert_eq!(names, [b"IHDR", b"IDAT", b"IEND"]);
        let sides = [(width as u32).to_be_bytes(), (height as u32).to_be_bytes()];
        assert_eq!(parts[0].1, [&sides.concat()[..], &[8, 2, 0, 0, 0]].concat());
        let (lines, check) = unpacked(&parts[1].1);
        assert_eq!(check.len(), 4);
        let rows = lines.chunks(1 + 3 * width);
        assert!(rows.clone().all(|row| row[0] == 0));
        let bytes: Vec<u8> = rows.flat_map(|row| row[1..].to_vec()).collect();
        assert_eq!(bytes, picture.bytes);
    }
}

#[test]
fn ppm_is_a_header_and_the_bytes() {
    let picture = some(3, 2);
    let file = picture.ppm();
    assert_eq!(file[..11], *b"P6\n3 2\n255\n");
    assert_eq!(file[11..], picture.bytes);
}

#[test]
fn the_ending_tells_the_kind() {
    assert_eq!(Kind::of("a.PPM").ok(), Some(Kind::Ppm));
    assert_eq!(Kind::of("a.b.png").ok(), Some(Kind::Png));
    assert!(Kind::of("png").is_err());
}
