//! Reads one frame file from standard input and prints its colours or its refusal.

fn main() -> std::io::Result<()> {
    reference::program::run(reference::program::text)
}
