//! Reads one frame file from standard input and prints its colours through the tone curve or its refusal.

fn main() -> std::io::Result<()> {
    reference::program::run(reference::program::curve_text)
}
