//! The versions that the proved library is timed against are built for the processor that it is built for.

use bench::processor::{of_instructions, of_library, Processor, OF_VERSIONS};

#[test]
fn the_versions_are_built_for_the_processor_of_the_library() {
    assert_eq!(OF_VERSIONS, of_library());
}

#[test]
fn an_instruction_tells_its_processor() {
    let instructions = [
        ("pmaxub %xmm1,%xmm2", Processor::Any),
        ("pmaxsw %xmm1,%xmm2", Processor::Any),
        ("pmuludq (%rax),%xmm2", Processor::Any),
        ("rep stos %al,%es:(%rdi)", Processor::Any),
        ("pmaxsd %xmm1,%xmm2", Processor::Second),
        ("lock cmpxchg16b (%rsi)", Processor::Second),
        ("popcnt %rax,%rcx", Processor::Second),
        ("vpmaxsd %ymm1,%ymm2,%ymm3", Processor::Third),
        ("shlx %rax,%rcx,%rdx", Processor::Third),
    ];
    for (instruction, processor) in instructions {
        let shown = format!("archive:\n  0:\tpush %rbp\n 1a:\t{instruction}\n");
        assert_eq!(of_instructions(&shown), Some(processor), "{instruction}");
    }
    assert_eq!(of_instructions("no instruction\n"), None);
}
