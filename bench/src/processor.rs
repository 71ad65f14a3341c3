//! Which processors code is built for: this crate, as the compiler tells it, and the proved library, by its instructions.

use std::fmt;
use std::path::{Path, PathBuf};
use std::process::Command;

/// The x86-64 processors on which code runs.
#[derive(Clone, Copy, Debug, PartialEq, Eq, PartialOrd, Ord)]
pub enum Processor {
    Any,
    /// Those with what came after SSE2, up to SSE4.2.
    Second,
    /// Those with AVX, or with what came beside it and later.
    Third,
}

impl fmt::Display for Processor {
    fn fmt(&self, f: &mut fmt::Formatter) -> fmt::Result {
        f.write_str(match self {
            Processor::Any => "x86-64",
            Processor::Second => "x86-64-v2",
            Processor::Third => "x86-64-v3 or later",
        })
    }
}

/// What this crate is built for, and so each version that the library is timed against.
pub const OF_VERSIONS: Processor = if cfg!(any(
    target_feature = "avx",
    target_feature = "bmi1",
    target_feature = "bmi2",
    target_feature = "lzcnt",
    target_feature = "movbe"
)) {
    Processor::Third
} else if cfg!(any(
    target_feature = "sse3",
    target_feature = "ssse3",
    target_feature = "sse4.1",
    target_feature = "sse4.2",
    target_feature = "sse4a",
    target_feature = "popcnt",
    target_feature = "cmpxchg16b"
)) {
    Processor::Second
} else {
    Processor::Any
};

/// How the names of instructions begin that came after SSE2, up to SSE4.2.
const SECOND: &str = "
    addsub blend cmpxchg16b crc32 dpp extractps fisttp hadd hsub insertps lddqu movddup movntdqa
    movshdup movsldup mpsadbw pabs packusdw palignr pblend pcmpeqq pcmpestr pcmpgtq pcmpistr
    pextrb pextrd pextrq phadd phminposuw phsub pinsrb pinsrd pinsrq pmaddubsw pmaxsb pmaxsd
    pmaxud pmaxuw pminsb pminsd pminud pminuw pmovsx pmovzx pmuldq pmulhrsw pmulld popcnt pshufb
    psign ptest round
";

/// What came with AVX or later and has a name that does not begin with v, but for `tzcnt`: so `rep bsf` is shown, which
/// any processor has.
const THIRD: &str = "
    andn bextr blsi blsmsk blsr bzhi lzcnt movbe mulx pdep pext rorx sarx shlx shrx
";

/// What the library is built for, the archive in the folder from which bindings/rust links it.
pub fn of_library() -> Processor {
    let folder = std::env::var_os("BAYER_LIB_DIR").map_or_else(built, PathBuf::from);
    let archive = folder.join("libbayer.a");
    let shown = Command::new("objdump")
        .args(["--disassemble", "--no-show-raw-insn"])
        .arg(&archive)
        .output()
        .expect("objdump, which gcc needs too");
    assert!(shown.status.success(), "{}", archive.display());
    of_instructions(&String::from_utf8_lossy(&shown.stdout)).expect("instructions")
}

fn built() -> PathBuf {
    Path::new(env!("CARGO_MANIFEST_DIR")).join("../build/lib")
}

/// What the lines `address, tab, instruction` ask for; None where there are none.
pub fn of_instructions(shown: &str) -> Option<Processor> {
    let lines = shown.lines().filter_map(|line| line.split('\t').nth(1));
    lines
        .flat_map(str::split_whitespace)
        .map(of_instruction)
        .max()
}

fn of_instruction(word: &str) -> Processor {
    let (mut second, mut third) = (SECOND.split_whitespace(), THIRD.split_whitespace());
    if word.starts_with('v') || third.any(|name| word == name) {
        Processor::Third
    } else if second.any(|start| word.starts_with(start)) {
        Processor::Second
    } else {
        Processor::Any
    }
}
