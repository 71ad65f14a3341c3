# An LLVM module with more in it, by `kind`:
#   lines   a name for each function and a line for each instruction, its own in the module;
#   counts  in @counts two numbers for each function: how often it is called, and how often it takes a remainder, other than by 2.
# The functions' names go to the file that `names` names, in the order of their numbers.
function noted(text) {
    notes[++noted_count] = text
    return "!" 1000 + noted_count
}
function count(place) {
    at = "ptr getelementptr ([1000 x i64], ptr @counts, i64 0, i64 " place ")"
    counters++
    print "  %held." counters " = load i64, " at
    print "  %raised." counters " = add i64 %held." counters ", 1"
    print "  store i64 %raised." counters ", " at
}
/^define / {
    name = $0
    sub(/^[^@]*@/, "", name)
    sub(/\(.*/, "", name)
    gsub(/"/, "", name)
    print name > names
    place = 2 * functions++
    if (kind == "lines") {
        scope = noted("distinct !DISubprogram(name: \"" name "\", linkageName: \"" name "\", scope: !900, file: !900, line: " NR \
            ", type: !901, unit: !902, spFlags: DISPFlagDefinition)")
        sub(/ \{$/, " !dbg " scope " {")
    }
    inside = 1
}
/^}/ { inside = 0 }
kind == "counts" && inside && / = [us]rem / && !/, 2$/ { count(place + 1) }
kind == "lines" && inside && /^  [^ ]/ && !/\[$/ { $0 = $0 ", !dbg " noted("!DILocation(line: " NR ", scope: " scope ")") }
{ print }
kind == "counts" && inside && /^start:/ { count(place) }
END {
    if (functions > 500) {
        print "more than 500 functions" > "/dev/stderr"
        exit 1
    }
    if (kind == "counts") print "@counts = global [1000 x i64] zeroinitializer"
    if (kind == "lines") {
        print "!llvm.module.flags = !{!903, !904}"
        print "!llvm.dbg.cu = !{!902}"
        print "!900 = !DIFile(filename: \"module.ll\", directory: \".\")"
        print "!901 = !DISubroutineType(types: !{})"
        print "!902 = distinct !DICompileUnit(language: DW_LANG_C99, file: !900, isOptimized: true, emissionKind: FullDebug)"
        print "!903 = !{i32 2, !\"Debug Info Version\", i32 3}"
        print "!904 = !{i32 2, !\"Dwarf Version\", i32 4}"
        for (k = 1; k <= noted_count; k++) print "!" 1000 + k " = " notes[k]
    }
}
