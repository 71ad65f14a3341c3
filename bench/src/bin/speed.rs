//! Times the proved library beside the other versions and prints tables; docs/PERFORMANCE.md tells what each number is. With a path it
//! also writes a picture there. The exit status is 0 where the proved develop has at least 1.9 times the plain version's speed on noise,
//! and on every texture at least 1.5 times the plain version's figure for noise and at least 0.75 times the optimised version's speed,
//! each by the best runs. Nothing is timed where the library and the other versions are built for different processors.

use bench::measures::{
    curve_speeds, develop_speeds, file_speeds, level_speeds, site_costs, together, Spread,
    Together, BRIGHT_ENOUGH, LEVELS, OPTIMISED, PLAIN, PROVED, VERSIONS,
};
use bench::picture::{drawn, Chart, Group};
use bench::processor;
use bench::textures::TEXTURES;
use std::process::ExitCode;

const SIDE: usize = 2048;
const RUNS: usize = 11;
const LITERAL_RUNS: usize = 3;
const TOGETHER_RUNS: usize = 5;

/// Width and height of the frames that show how the cost grows.
const SIZES: [(usize, usize); 8] = [
    (64, 64),
    (256, 256),
    (512, 512),
    (1024, 1024),
    (2048, 2048),
    (4096, 4096),
    (16, 4096),
    (4096, 16),
];

/// For each texture the speeds of the versions.
type Speeds = [[Spread; 4]; 4];

fn head(title: &str, columns: &[String]) {
    println!("\n| {title} | {} |", columns.join(" | "));
    println!("|---{}|", "|---".repeat(columns.len()));
}

fn row(name: &str, cells: &[String]) {
    println!("| {name} | {} |", cells.join(" | "));
}

fn textures() -> [String; 4] {
    TEXTURES.map(|texture| format!("{texture:?}").to_lowercase())
}

fn spread(spread: Spread, digits: usize) -> String {
    let Spread {
        best,
        median,
        worst,
    } = spread;
    format!("{best:.digits$} / {median:.digits$} / {worst:.digits$}")
}

fn ratios(name: &str, of_texture: impl Fn(usize) -> f64) {
    row(
        name,
        &[0, 1, 2, 3].map(|texture| format!("{:.2}", of_texture(texture))),
    );
}

fn develop_tables() -> Speeds {
    let speeds = TEXTURES.map(|texture| develop_speeds(texture, SIDE, RUNS, LITERAL_RUNS));
    head("MP/s: best / median / worst", &textures());
    for (version, name) in VERSIONS.iter().enumerate() {
        let digits = if version > PLAIN { 2 } else { 1 };
        row(
            name,
            &speeds.map(|versions| spread(versions[version], digits)),
        );
    }
    head("ratio", &textures());
    let best = |version: usize, texture: usize| speeds[texture][version].best;
    let median = |version: usize, texture: usize| speeds[texture][version].median;
    ratios("proved / optimised", |texture| {
        best(PROVED, texture) / best(OPTIMISED, texture)
    });
    ratios("the same of the medians", |texture| {
        median(PROVED, texture) / median(OPTIMISED, texture)
    });
    ratios("proved / plain", |texture| {
        best(PROVED, texture) / best(PLAIN, texture)
    });
    ratios("optimised / plain", |texture| {
        best(OPTIMISED, texture) / best(PLAIN, texture)
    });
    ratios("proved / plain on noise", |texture| {
        best(PROVED, texture) / best(PLAIN, 0)
    });
    speeds
}

/// What a black level costs.
fn level_table() {
    let speeds = TEXTURES.map(|texture| level_speeds(texture, SIDE, RUNS));
    head(
        &format!("MP/s of the proved version, samples from {BRIGHT_ENOUGH} on"),
        &textures(),
    );
    for (level, black) in LEVELS.iter().enumerate() {
        let cells = speeds.map(|levels| spread(levels[level], 1));
        row(&format!("black level {black}"), &cells);
    }
}

fn curve_table() {
    let title = "millions of numbers a second, the curve";
    head(title, &["best / median / worst".to_string()]);
    let speeds = curve_speeds(SIDE, RUNS);
    for (name, speed) in VERSIONS.iter().zip(speeds) {
        row(name, &[spread(speed, 0)]);
    }
    let ratio = speeds[PROVED].best / speeds[OPTIMISED].best;
    row("proved / optimised", &[format!("{ratio:.2}")]);
}

fn file_table() {
    head("MB/s", &["best / median / worst".to_string()]);
    let [write, read] = file_speeds(SIDE, RUNS);
    row("write", &[spread(write, 0)]);
    row("read", &[spread(read, 0)]);
}

/// Returns the costs of the proved and the optimised version for each size.
fn growth_table() -> Vec<[f64; 2]> {
    let costs: Vec<_> = SIZES
        .iter()
        .map(|&(width, height)| site_costs(width, height))
        .collect();
    let names: Vec<_> = SIZES
        .iter()
        .map(|(width, height)| format!("{width} x {height}"))
        .collect();
    head("ns a site, W x H", &names);
    for (version, name) in VERSIONS.iter().take(2).enumerate() {
        let cells: Vec<_> = costs
            .iter()
            .map(|costs| format!("{:.1}", costs[version]))
            .collect();
        row(name, &cells);
    }
    costs
}

fn threads_table() {
    let most = std::thread::available_parallelism().map_or(1, usize::from);
    head(
        "MP/s of threads together",
        &["wall clock".to_string(), "core time".to_string()],
    );
    for threads in 1..=most {
        let speeds = [(); TOGETHER_RUNS].map(|()| together(threads, SIDE, RUNS));
        let best = |speed: fn(&Together) -> f64| speeds.iter().map(speed).fold(0.0, f64::max);
        let cells = [best(|s| s.wall), best(|s| s.cores)].map(|speed| format!("{speed:.1}"));
        row(&threads.to_string(), &cells);
    }
}

fn picture(speeds: &Speeds, costs: &[[f64; 2]]) -> String {
    let by_texture = speeds
        .iter()
        .zip(textures())
        .map(|(versions, label)| Group {
            label,
            bars: versions.iter().map(|spread| spread.best).collect(),
        });
    let by_size = SIZES
        .iter()
        .zip(costs)
        .map(|((width, height), costs)| Group {
            label: format!("{width}x{height}"),
            bars: costs.to_vec(),
        });
    let charts = [
        Chart {
            title: format!("develop, {SIDE} x {SIDE}: megapixels a second, best of {RUNS}"),
            groups: by_texture.collect(),
        },
        Chart {
            title: "noise: nanoseconds a site, by W x H".to_string(),
            groups: by_size.collect(),
        },
    ];
    drawn(&charts, &VERSIONS)
}

/// The three conditions for exit status 0.
fn is_fast_enough(speeds: &Speeds) -> bool {
    let plain_on_noise = speeds[0][PLAIN].best;
    let against_noise = speeds.map(|versions| versions[PROVED].best / plain_on_noise);
    let against_optimised = speeds.map(|versions| versions[PROVED].best / versions[OPTIMISED].best);
    against_noise[0] >= 1.9
        && against_noise.iter().all(|&ratio| ratio >= 1.5)
        && against_optimised.iter().all(|&ratio| ratio >= 0.75)
}

/// Prints what the versions are built for, and returns whether it is the same.
fn built_alike() -> bool {
    let library = processor::of_library();
    let versions = processor::OF_VERSIONS;
    println!("built for: proved {library}, the others {versions}");
    library == versions
}

fn main() -> ExitCode {
    if !built_alike() {
        println!("different processors: nothing is timed");
        return ExitCode::FAILURE;
    }
    println!(
        "{SIDE} x {SIDE}, phase 0, black level {}, {RUNS} runs, {LITERAL_RUNS} of the literal version",
        LEVELS[0]
    );
    let speeds = develop_tables();
    level_table();
    curve_table();
    file_table();
    let costs = growth_table();
    threads_table();
    if let Some(path) = std::env::args_os().nth(1) {
        std::fs::write(&path, picture(&speeds, &costs)).expect("a path that can be written");
    }
    let met = is_fast_enough(&speeds);
    println!("\n{}", if met { "fast enough" } else { "too slow" });
    ExitCode::from(u8::from(!met))
}
