//! What is measured. Times are those that a thread has a core, unless a function says otherwise; calls that are compared go by turns.

use crate::clock::core_time;
use crate::optimised::{curve::curve, Optimised};
use crate::plain::Plain;
use crate::textures::Texture;
use crate::versions::{Literal, Proved, Version};
use reference::calls::Refusal;
use std::sync::Barrier;
use std::time::Instant;

/// How much a second, over several runs.
#[derive(Clone, Copy)]
pub struct Spread {
    pub best: f64,
    pub median: f64,
    pub worst: f64,
}

impl Spread {
    fn of(mut speeds: Vec<f64>) -> Self {
        speeds.sort_by(f64::total_cmp);
        Spread {
            best: speeds[speeds.len() - 1],
            median: speeds[speeds.len() / 2],
            worst: speeds[0],
        }
    }
}

/// The versions in the order of their results.
pub const VERSIONS: [&str; 4] = ["proved", "optimised unproved", "plain scalar", "literal"];
pub const PROVED: usize = 0;
pub const OPTIMISED: usize = 1;
pub const PLAIN: usize = 2;

/// The black levels of the proved version's runs that are set side by side. All else is at the first.
pub const LEVELS: [usize; 2] = [0, 255];
/// Samples from here on are accepted at each of them.
pub const BRIGHT_ENOUGH: u16 = 191;

/// A version with its planes and its map, and the speeds of its runs.
struct Timed {
    version: Box<dyn Version>,
    planes: [Vec<i32>; 3],
    map: Vec<u8>,
    speeds: Vec<f64>,
}

impl Timed {
    fn new<V: Version + 'static>(width: usize, height: usize) -> Self {
        Timed {
            version: Box::new(V::new(width, height)),
            planes: [(); 3].map(|()| vec![-1; width * height]),
            map: vec![99; width * height],
            speeds: Vec::new(),
        }
    }

    /// One call, in megapixels a second.
    fn run(&mut self, black: usize, mosaic: &[u16]) {
        let [red, green, blue] = &mut self.planes;
        let start = core_time();
        self.version
            .develop(0, black, mosaic, [red, green, blue], &mut self.map);
        let sites = mosaic.len() as f64;
        self.speeds.push(sites / (core_time() - start) / 1e6);
    }
}

/// Megapixels a second of the four versions on a square frame, the literal one over `literal_runs`. They must fill the same planes and the
/// same map.
pub fn develop_speeds(
    texture: Texture,
    side: usize,
    runs: usize,
    literal_runs: usize,
) -> [Spread; 4] {
    let mosaic = texture.mosaic(side, side);
    let mut versions = [
        Timed::new::<Proved>(side, side),
        Timed::new::<Optimised>(side, side),
        Timed::new::<Plain>(side, side),
        Timed::new::<Literal>(side, side),
    ];
    for run in 0..runs.max(literal_runs) {
        for (version, timed) in versions.iter_mut().enumerate() {
            let wanted = if version > PLAIN { literal_runs } else { runs };
            if run < wanted {
                timed.run(LEVELS[0], &mosaic);
            }
        }
    }
    for timed in &versions {
        assert!(timed.planes == versions[0].planes, "{texture:?}");
        assert!(timed.map == versions[0].map, "{texture:?}");
    }
    versions.map(|timed| Spread::of(timed.speeds))
}

/// Megapixels a second of the proved version at each of the black levels, on a square frame whose darker samples are raised for it.
pub fn level_speeds(texture: Texture, side: usize, runs: usize) -> [Spread; 2] {
    let mut mosaic = texture.mosaic(side, side);
    for sample in &mut mosaic {
        *sample = (*sample).max(BRIGHT_ENOUGH);
    }
    let mut versions = LEVELS.map(|_| Timed::new::<Proved>(side, side));
    for _ in 0..runs {
        for (timed, black) in versions.iter_mut().zip(LEVELS) {
            timed.run(black, &mosaic);
        }
    }
    versions.map(|timed| Spread::of(timed.speeds))
}

/// Millions of numbers a second of the curve, of the proved and the optimised version, on a clamped plane of noise.
pub fn curve_speeds(side: usize, runs: usize) -> [Spread; 2] {
    type Curve = fn(&[i32], &mut [i32]) -> Result<(), Refusal>;
    let curves: [Curve; 2] = [compare::curve, curve];
    let mosaic = Texture::Noise.mosaic(side, side);
    let plane: Vec<i32> = mosaic.into_iter().map(i32::from).collect();
    let mut timed = curves.map(|curve| (curve, vec![-1; plane.len()], Vec::new()));
    for _ in 0..runs {
        for (curve, curved, speeds) in &mut timed {
            let start = core_time();
            assert_eq!(curve(&plane, curved), Ok(()));
            speeds.push(plane.len() as f64 / (core_time() - start) / 1e6);
        }
    }
    assert!(timed[PROVED].1 == timed[OPTIMISED].1);
    timed.map(|(_, _, speeds)| Spread::of(speeds))
}

/// Nanoseconds a site of the proved and the optimised version on noise, the best of several runs.
pub fn site_costs(width: usize, height: usize) -> [f64; 2] {
    let mosaic = Texture::Noise.mosaic(width, height);
    let mut versions = [
        Timed::new::<Proved>(width, height),
        Timed::new::<Optimised>(width, height),
    ];
    let runs = ((1 << 25) / mosaic.len()).clamp(5, 200);
    for _ in 0..runs {
        for timed in &mut versions {
            timed.run(LEVELS[0], &mosaic);
        }
    }
    versions.map(|timed| 1e3 / Spread::of(timed.speeds).best)
}

/// Megabytes of the frame file a second, of write and of read.
pub fn file_speeds(side: usize, runs: usize) -> [Spread; 2] {
    let mosaic = Texture::Noise.mosaic(side, side);
    let blocks = reference::frame_file::block_count(side, side);
    let mut file = vec![0; blocks * reference::frame_file::BLOCK];
    let mut samples = vec![0; mosaic.len()];
    let (mut writes, mut reads) = (Vec::new(), Vec::new());
    for _ in 0..runs {
        let start = core_time();
        assert_eq!(compare::write(side, side, 0, &mosaic, &mut file), Ok(()));
        let written = core_time();
        assert!(compare::read(&file, &mut samples).is_ok());
        let read = core_time();
        writes.push(file.len() as f64 / (written - start) / 1e6);
        reads.push(file.len() as f64 / (read - written) / 1e6);
    }
    assert!(samples == mosaic);
    [Spread::of(writes), Spread::of(reads)]
}

/// Megapixels a second of several threads together.
pub struct Together {
    /// By the clock on the wall: what a machine that does nothing else gives.
    pub wall: f64,
    /// The sum of the threads' speeds by the time that each has a core: other programs disturb it less.
    pub cores: f64,
}

/// Each thread develops `frames` frames of noise with the proved library, in buffers of its own.
pub fn together(threads: usize, side: usize, frames: usize) -> Together {
    let start = Barrier::new(threads + 1);
    let mosaic = Texture::Noise.mosaic(side, side);
    let megapixels = frames as f64 * mosaic.len() as f64 / 1e6;
    std::thread::scope(|scope| {
        let work = || {
            let mut timed = Timed::new::<Proved>(side, side);
            timed.run(LEVELS[0], &mosaic);
            start.wait();
            let begun = core_time();
            for _ in 0..frames {
                timed.run(LEVELS[0], &mosaic);
            }
            core_time() - begun
        };
        let running: Vec<_> = (0..threads).map(|_| scope.spawn(work)).collect();
        start.wait();
        let begun = Instant::now();
        let times = running
            .into_iter()
            .map(|thread| thread.join().expect("a thread that ends"));
        let cores = times.map(|time| megapixels / time).sum();
        let wall = threads as f64 * megapixels / begun.elapsed().as_secs_f64();
        Together { wall, cores }
    })
}
