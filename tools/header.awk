# Prints the C header of what a crate exports: awk -f tools/header.awk VERSION crates/fields/src/lib.rt crates/hive_c/src/lib.rt >include/kiweamotu.h
# The first file is the version. Of the second the faults are read, and their numbers. Of the third, comments at the top of the file, above a block of constants, above a
# #[repr(C)] struct and above a #[unsafe(no_mangle)] function become C comments. The layout that the C rules give each struct is asserted.
function trim(s) { gsub(/^[ \t]+|[ \t]+$/, "", s); return s }
function number(t) {
    if (t == "usize") return "size_t"
    if (t ~ /^u[0-9]+$/) { sub(/^u/, "", t); return "uint" t "_t" }
    return t
}
function parameter(s,   i, name, t, c) {
    i = index(s, ":"); name = trim(substr(s, 1, i - 1)); t = trim(substr(s, i + 1))
    if (t !~ /^&/) return number(t) " " name
    sub(/^&/, "", t)
    if (t ~ /^mut /) { sub(/^mut /, "", t); c = "" } else c = "const "
    gsub(/[][]/, "", t)
    return c number(t) " *" name ", size_t " name "_len"
}
function comment(   k) {
    if (lines == 0) return
    if (lines == 1) printf "/* %s */\n", text[1]
    else {
        for (k = 1; k <= lines; k++) printf "%s%s\n", k == 1 ? "/* " : (text[k] == "" ? " *" : " * "), text[k]
        print " */"
    }
}
function structure(body,   n, f, k, x, i, t, name, at, size, align, most, checks) {
    n = split(body, f, ","); at = 0; most = 1; checks = ""
    print "typedef struct {"
    for (k = 1; k <= n; k++) {
        x = trim(f[k]); if (x == "") continue
        sub(/^pub /, "", x); i = index(x, ":"); name = trim(substr(x, 1, i - 1)); t = trim(substr(x, i + 1))
        size = (t == "u32") ? 4 : (t == "u64" || t == "usize") ? 8 : sizes[t]; align = (t in aligns) ? aligns[t] : size
        if (align > most) most = align
        at = int((at + align - 1) / align) * align
        printf "    %s %s;\n", number(t), name
        checks = checks sprintf("HIVE_ASSERT(offsetof(%s, %s) == %d);\n", struct, name, at)
        at += size
    }
    at = int((at + most - 1) / most) * most; sizes[struct] = at; aligns[struct] = most
    printf "} %s;\n%sHIVE_ASSERT(sizeof(%s) == %d);\n", struct, checks, struct, at
}
function signature(s,   name, res, args, d, cur, out, k, ch) {
    sub(/^.*extern "C" fn */, "", s); name = s; sub(/\(.*/, "", name); res = "void"
    if (s ~ /->/) { res = s; sub(/^.*-> */, "", res); sub(/[ {].*/, "", res); res = number(trim(res)) }
    args = s; sub(/^[^(]*\(/, "", args); sub(/\)[^)]*$/, "", args); d = 0; cur = ""; out = ""
    for (k = 1; k <= length(args) + 1; k++) {
        ch = k > length(args) ? "," : substr(args, k, 1)
        if (ch == "[") d++
        if (ch == "]") d--
        if (ch != "," || d > 0) { cur = cur ch; continue }
        if (trim(cur) != "") out = out (out == "" ? "" : ", ") parameter(cur)
        cur = ""
    }
    printf "%s %s(%s);\n", res, name, out == "" ? "void" : out
}
# TwoWords as TWO_WORDS
function upper(s) { gsub(/[A-Z]/, "_&", s); return toupper(substr(s, 2)) }
function faults(   k) {
    print "\n/* The refusals. */\nenum HiveFault {"
    for (k = 1; k <= fault_count; k++) printf "    HIVE_FAULT_%s = %d, /* %s */\n", upper(fault[k]), k, meaning[fault[k]]
    print "};"
}
function enum_ends() { if (block) print "};"; block = 0 }
# One constant. Those below one comment become one enum, if an int holds them.
function constant(s,   name, n) {
    if (lines > 0) enum_ends()
    name = s; sub(/^const /, "", name); sub(/:.*/, "", name); n = s; sub(/^.*= /, "", n); gsub(/[;_]/, "", n)
    if (n ~ /^0x/) { print ""; comment(); printf "#define HIVE_%s %su\n", name, n; return }
    if (!block) { print ""; comment(); print "enum {" }
    block = 1; printf "    HIVE_%s = %s,\n", name, n
}
FNR == 1 { part++ }
part == 1 { version = $1; next }
part == 2 && /^    \/\/ / { said = $0; sub(/^    \/\/ /, "", said) }
part == 2 && /^    [A-Za-z]+ = [0-9]+,$/ { fault[$3 + 0] = $1; meaning[$1] = said; if ($3 + 0 > fault_count) fault_count = $3 + 0 }
part == 2 { next }
/^\/\// { x = $0; sub(/^\/\/ ?/, "", x); text[++lines] = x; next }
!begun {
    begun = 1; comment(); lines = 0
    print "#ifndef KIWEAMOTU_H\n#define KIWEAMOTU_H\n\n#include <stddef.h>\n#include <stdint.h>\n\n#ifdef __cplusplus\n#define HIVE_ASSERT(x) static_assert(x, #x)\nextern \"C\" {\n#else\n#define HIVE_ASSERT(x) _Static_assert(x, #x)\n#endif\n"
    print "HIVE_ASSERT(sizeof(size_t) == 8); /* x86-64 only */"
    printf "\n/* The version of the release. That of the interface is hive_abi(). */\n#define KIWEAMOTU_VERSION \"%s\"\n", version
    faults()
}
/^const / { constant($0) }
!/^const / && NF > 0 { enum_ends() }
/^#\[derive/ { next }
/^#\[repr\(C\)\]/ { repr = 1; next }
repr && /^pub struct/ { struct = $3; body = ""; inside = 1; print ""; comment() }
inside {
    line = $0; sub(/\/\/.*/, "", line); body = body " " line
    if (index(line, "}")) { inside = 0; repr = 0; sub(/^[^{]*\{/, "", body); sub(/\}.*/, "", body); structure(body) }
}
/^#\[unsafe\(no_mangle\)\]/ { export = 1; next }
export && /extern "C" fn/ { sig = ""; reading = 1; print ""; comment() }
reading {
    sig = sig " " $0
    if ($0 ~ /\)/) { reading = 0; export = 0; signature(sig) }
}
{ lines = 0 }
END { print "\n#ifdef __cplusplus\n}\n#endif\n\n#undef HIVE_ASSERT\n#endif" }
