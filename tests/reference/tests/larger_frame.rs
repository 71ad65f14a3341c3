//! The larger frame of the case table (crates/cases, FrameCases): its planes and its map, and what its sites are.

mod common;

use common::{developed, Developed};
use reference::green::{choice, first_pass, sums, Outcome, D, H, V};
use reference::sites::Frame;

fn larger_frame() -> Frame {
    #[rustfmt::skip]
    let samples = vec![
        140, 1023, 1023, 0, 600, 900,
        0, 1023, 1000, 0, 300, 0,
        1023, 0, 1023, 1023, 1023, 0,
        220, 0, 1023, 0, 100, 500,
        0, 0, 0, 0, 0, 1023,
        0, 0, 800, 0, 1023, 0,
    ];
    Frame {
        width: 6,
        height: 6,
        phase: 2,
        samples,
    }
}

#[test]
fn its_planes_and_its_map_are_those_of_the_table() {
    #[rustfmt::skip]
    let expected = Developed {
        red: vec![
            -276, 1108, 1029, -16, 568, 705,
            0, 769, 1000, 5, 300, -26,
            809, 136, 1064, 1044, 1060, -132,
            220, 107, 1023, 230, 100, 670,
            213, 256, 427, 318, 526, 1130,
            0, 289, 800, 641, 1023, 711,
        ],
        green: vec![
            140, 1371, 1023, -5, 600, 743,
            464, 1023, 972, 0, 338, 0,
            1023, 235, 1023, 966, 1023, -167,
            245, 0, 775, 0, -32, 500,
            0, -9, 0, -191, 0, 625,
            -173, 0, 156, 0, 247, 0,
        ],
        blue: vec![
            -168, 1023, 926, 0, 703, 900,
            169, 698, 877, 39, 445, 130,
            787, 0, 944, 1023, 1147, 0,
            127, -76, 758, 82, 163, 724,
            1, 0, 64, 0, 302, 1023,
            -164, 25, 257, 202, 551, 327,
        ],
        map: vec![
            0, 3, 0, 6, 0, 1,
            3, 0, 3, 0, 6, 0,
            0, 5, 0, 6, 0, 5,
            5, 0, 4, 0, 6, 0,
            0, 6, 0, 4, 0, 5,
            4, 0, 4, 0, 2, 0,
        ],
    };
    assert_eq!(developed(&larger_frame()), expected);
}

#[test]
fn most_of_its_sites_are_weak_and_take_each_estimate() {
    let frame = larger_frame();
    let sites = first_pass(&frame);
    let (mut equal, mut across, mut down, mut equal_least) = (0, 0, 0, 0);
    let mut taken = [0; 3];
    for row in 0..6 {
        for column in 0..6 {
            let Some(site) = sites.at(row, column) else {
                continue;
            };
            match site.outcome {
                Outcome::Equal => equal += 1,
                Outcome::StrongAcross => across += 1,
                Outcome::StrongDown => down += 1,
                Outcome::Weak => {
                    let sums = sums(&sites, row, column);
                    let least = sums.iter().min().unwrap();
                    equal_least += usize::from(sums.iter().filter(|sum| *sum == least).count() > 1);
                    taken[choice(sums)] += 1;
                }
            }
        }
    }
    assert_eq!((equal, across, down), (1, 1, 3));
    assert_eq!((taken[H], taken[V], taken[D]), (4, 4, 5));
    assert_eq!(equal_least, 3);
}
