//! The wrapper's calls: the example frame, the way through a file, each refusal, and what the header says of lengths and texts.

use bayer::{
    clamp, curve, decision_text, develop, read, read_length, text, write, Decision, Refusal, Shape,
    BLACK_MOST, SAMPLE_MOST, UNDER_BLACK_MOST,
};

const SHAPE: Shape = Shape {
    width: 2,
    height: 2,
    phase: 0,
};
const MOSAIC: [u16; 4] = [100, 40, 61, 200];

fn refused(number: usize, place: usize) -> Result<(), Refusal> {
    Err(Refusal { number, place })
}

fn written() -> Vec<u8> {
    let mut file = vec![7; SHAPE.file_length()];
    write(SHAPE, &MOSAIC, &mut file).unwrap();
    file
}

/// Sets the check of a block to what its other bytes give.
fn with_check(mut file: Vec<u8>, block: usize) -> Vec<u8> {
    let bytes = &mut file[512 * block..][..512];
    let sum: u32 = (1..)
        .zip(&bytes[..508])
        .map(|(k, &b)| k * u32::from(b))
        .sum();
    bytes[508..].copy_from_slice(&sum.to_le_bytes());
    file
}

/// The example developed at a black level: the planes red, green and blue, and the map.
fn example_at(black: usize) -> Result<([[i32; 4]; 3], [u8; 4]), Refusal> {
    let (mut red, mut green, mut blue) = ([7; 4], [7; 4], [7; 4]);
    let (mut map, mut work) = ([7; 4], [7; 16]);
    develop(
        SHAPE, black, &MOSAIC, &mut red, &mut green, &mut blue, &mut map, &mut work,
    )?;
    Ok(([red, green, blue], map))
}

#[test]
fn develops_the_example() {
    let ([red, green, blue], map) = example_at(0).unwrap();
    assert_eq!(red, [100, 90, 111, 100]);
    assert_eq!(green, [51, 40, 61, 51]);
    assert_eq!(blue, [200, 190, 211, 200]);
    assert_eq!(map, [1, 0, 0, 1]);
}

/// The darkest sample of the example is 40, so that levels to 104 are accepted.
#[test]
fn develops_the_example_at_a_black_level() {
    let (planes, map) = example_at(0).unwrap();
    for black in [1, 40, 64, 65, 40 + UNDER_BLACK_MOST] {
        let less = planes.map(|plane| plane.map(|number| number - black as i32));
        assert_eq!(example_at(black), Ok((less, map)), "{black}");
    }
    for (black, first_dark) in [(41 + UNDER_BLACK_MOST, 1), (BLACK_MOST, 0)] {
        let answer = example_at(black).map(|_| ());
        assert_eq!(answer, refused(Refusal::UNDER_BLACK, first_dark));
    }
}

#[test]
fn develop_refuses_and_leaves_the_buffers() {
    let refuses = |shape, black, mosaic: &[u16], [map, work]: [usize; 2], number, place| {
        let (mut red, mut green, mut blue) = ([7; 4], [7; 4], [7; 4]);
        let (mut map, mut work) = (vec![7; map], vec![7; work]);
        let answer = develop(
            shape, black, mosaic, &mut red, &mut green, &mut blue, &mut map, &mut work,
        );
        assert_eq!(answer, refused(number, place));
        assert_eq!([red, green, blue], [[7; 4]; 3]);
        assert!(map.iter().all(|&code| code == 7));
        assert!(work.iter().all(|&entry| entry == 7));
    };
    // Of 105 the sample 40 is 65 under; two samples are too high behind it.
    let (bright, short, high) = ([100, 40, 1024, 1025], [4, 15], BLACK_MOST + 1);
    let narrow = Shape { width: 1, ..SHAPE };
    refuses(narrow, high, &bright, short, Refusal::SIZE, 0);
    let phase_4 = Shape { phase: 4, ..SHAPE };
    refuses(phase_4, high, &bright, short, Refusal::PHASE, 0);
    for high in [high, 1 << 16, usize::MAX] {
        refuses(SHAPE, high, &bright[..3], short, Refusal::BLACK_LEVEL, 0);
    }
    refuses(SHAPE, 105, &bright[..3], short, Refusal::MOSAIC_LENGTH, 0);
    refuses(SHAPE, 105, &[], [0, 0], Refusal::MOSAIC_LENGTH, 0);
    refuses(SHAPE, 105, &bright, short, Refusal::BUFFER_LENGTH, 0);
    for map in [0, 3, 5, 16] {
        refuses(SHAPE, 105, &bright, [map, 16], Refusal::BUFFER_LENGTH, 0);
    }
    refuses(SHAPE, 105, &bright, [4, 16], Refusal::SAMPLE, 2);
    refuses(SHAPE, 105, &MOSAIC, [4, 16], Refusal::UNDER_BLACK, 1);
}

#[test]
fn clamps() {
    let plane = [i32::MIN, -1, 0, 512, 1023, 1024, i32::MAX];
    let mut held = [7; 7];
    assert_eq!(
        clamp(&plane, &mut held[..6]),
        refused(Refusal::BUFFER_LENGTH, 0)
    );
    assert_eq!(held, [7; 7]);
    assert_eq!(clamp(&plane, &mut held), Ok(()));
    assert_eq!(held, [0, 0, 0, 512, 1023, 1023, 1023]);
    assert_eq!(clamp(&[], &mut []), Ok(()));
}

#[test]
fn curves() {
    let plane: Vec<i32> = (0..=SAMPLE_MOST.into()).collect();
    let mut curved = vec![7; plane.len()];
    assert_eq!(curve(&plane, &mut curved), Ok(()));
    assert_eq!([curved[0], curved[1], curved[1023]], [0, 32, 1023]);
    for (v, &t) in (1..).zip(&curved[1..]) {
        let rule = (2 * t - 1).pow(2) < 4092 * v && 4092 * v < (2 * t + 1).pow(2);
        assert!(rule && t > 0, "{v} {t}");
    }
    assert_eq!(curve(&[], &mut []), Ok(()));
}

#[test]
fn curve_refuses_and_leaves_the_plane() {
    let refuses = |plane: &[i32], room: usize, number, place| {
        let mut curved = vec![7; room];
        assert_eq!(curve(plane, &mut curved), refused(number, place));
        assert!(curved.iter().all(|&entry| entry == 7));
    };
    for room in [0, 2, 4] {
        refuses(&[-1, 1024, 0], room, Refusal::BUFFER_LENGTH, 0);
    }
    refuses(&[-1], 0, Refusal::BUFFER_LENGTH, 0);
    for high_or_low in [-1, 1024, i32::MIN, i32::MAX] {
        refuses(&[high_or_low], 1, Refusal::UNCLAMPED, 0);
        refuses(&[0, 1023, high_or_low, -1], 4, Refusal::UNCLAMPED, 2);
    }
}

#[test]
fn writes_the_stored_example_and_reads_it_back() {
    let file = written();
    assert_eq!(file, include_bytes!("../../../examples/glaze.bayr"));
    let mut samples = vec![7; read_length(file.len())];
    assert_eq!(read(&file, &mut samples), Ok(SHAPE));
    assert_eq!(samples[..4], MOSAIC);
    assert!(samples[4..].iter().all(|&entry| entry == 7));
}

#[test]
fn read_refuses_and_leaves_the_samples() {
    let refuses = |file: &[u8], room: usize, number, place| {
        let mut samples = vec![7; room];
        assert_eq!(read(file, &mut samples).map(|_| ()), refused(number, place));
        assert!(samples.iter().all(|&entry| entry == 7));
    };
    let changed = |place: usize, value| {
        let mut file = written();
        file[place] = value;
        file
    };
    let file = written();
    refuses(&[], 4, Refusal::BLOCK_COUNT, 0);
    refuses(&file[..512], 4, Refusal::BLOCK_COUNT, 0);
    refuses(&file, 3, Refusal::BUFFER_LENGTH, 0);
    refuses(&file, 0, Refusal::BUFFER_LENGTH, 0);
    refuses(&changed(600, 1), 4, Refusal::CHECK, 1);
    refuses(&with_check(changed(4, b'b'), 0), 4, Refusal::HEADER, 0);
    refuses(&with_check(changed(512, 2), 1), 4, Refusal::BLOCK_NUMBER, 1);
    refuses(&with_check(changed(600, 1), 1), 4, Refusal::FILLER, 1);
}

#[test]
fn write_refuses_and_leaves_the_file() {
    let mut file = [7; 1024];
    let bright = [100, 1024, 61, 1025];
    assert_eq!(
        write(SHAPE, &bright, &mut file),
        refused(Refusal::SAMPLE, 1)
    );
    let short = write(SHAPE, &bright, &mut file[..1023]);
    assert_eq!(short, refused(Refusal::BUFFER_LENGTH, 0));
    assert_eq!(file, [7; 1024]);
}

#[test]
fn lengths_for_any_sides() {
    let of = |width, height| Shape {
        width,
        height,
        phase: 0,
    };
    assert_eq!(of(20, 20).file_length(), 1024);
    assert_eq!(of(401, 1).file_length(), 1536);
    assert_eq!(of(4096, 4096).work_length(), 4 * 4096 * 4096);
    assert_eq!(of(4096, 3).map_length(), 3 * 4096);
    for side in [0, 1, 4097, usize::MAX] {
        let shape = of(side, side);
        let mut file = vec![7; shape.file_length().min(1024)];
        assert_eq!(write(shape, &[], &mut file), refused(Refusal::SIZE, 0));
        assert!(read_length(side) <= side || side < 512);
    }
}

#[test]
fn texts_and_version() {
    let texts: std::collections::HashSet<_> = (0..=14).map(text).collect();
    assert_eq!(texts.len(), 15);
    assert_eq!(text(usize::MAX), text(14));
    let refusal = Refusal {
        number: Refusal::SAMPLE,
        place: 9,
    };
    assert_eq!(refusal.to_string(), "refused 5 9: a sample above 1023");
    assert_eq!(bayer::version(), env!("CARGO_PKG_VERSION"));
}

#[test]
fn decisions_by_their_codes() {
    let words = [
        (Decision::Measured, "measured"),
        (Decision::Equal, "equal"),
        (Decision::StrongAcross, "strong across"),
        (Decision::StrongDown, "strong down"),
        (Decision::WeakAcross, "weak resolved across"),
        (Decision::WeakDown, "weak resolved down"),
        (Decision::WeakToMean, "weak resolved to the mean"),
    ];
    assert_eq!(words.map(|(decision, _)| decision), Decision::ALL);
    for (code, (decision, text)) in (0..).zip(words) {
        assert_eq!(Decision::from_code(code), Some(decision));
        assert_eq!(decision.code(), code);
        assert_eq!(decision.to_string(), text);
        assert_eq!(decision_text(code.into()), text);
    }
    assert!((7..=u8::MAX).all(|code| Decision::from_code(code).is_none()));
    let texts: std::collections::HashSet<_> = (0..=7).map(decision_text).collect();
    assert_eq!(texts.len(), 8);
    assert_eq!(decision_text(usize::MAX), decision_text(7));
    assert_eq!(format!("{:>10}", Decision::Equal), "     equal");
}
