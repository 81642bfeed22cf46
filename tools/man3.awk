# Prints the manual page of the calls from the header's comments: awk -v version="$(cat VERSION)" -f tools/man3.awk include/kiweamotu.h
# A comment and the code behind it, up to an empty line, are one item. The first comment is the description; a function, a struct and a list of
# constants have a section each, in this order of sections.
function escape(s) { gsub(/\\/, "\\e", s); gsub(/-/, "\\-", s); if (s ~ /^[.']/) s = "\\&" s; return s }
# A comment's lines as paragraphs: a line that starts with '- ' begins an item of a list.
function prose(s,   n, line, k, out, x) {
    n = split(s, line, "\n"); out = ""
    for (k = 1; k <= n; k++) {
        x = line[k]
        if (x == "") out = out ".PP\n"
        else if (sub(/^- /, "", x)) out = out ".IP \\(bu 2\n" escape(x) "\n"
        else { sub(/^  /, "", x); out = out escape(x) "\n" }
    }
    return out
}
function plain(s,   n, line, k, out) {
    n = split(s, line, "\n"); out = ".nf\n"
    for (k = 1; k <= n; k++) if (line[k] != "") out = out escape(line[k]) "\n"
    return out ".fi\n"
}
# A prototype, its words parted at the commas so that long ones fold.
function prototype(s) { gsub(/\n/, "", s); return ".HP\n.B " escape(s) "\n" }
function item(   name) {
    if (code ~ /^[A-Za-z0-9_]+ hive_[a-z_]+\(/) {
        name = code; sub(/\(.*/, "", name); sub(/^.* /, "", name)
        calls = calls ".SS " name "\n" prose(comment) prototype(code)
        synopsis = synopsis prototype(code)
    } else if (code ~ /^typedef struct/) {
        name = code; sub(/;\n*$/, "", name); sub(/^.*} /, "", name)
        structs = structs ".SS " name "\n" plain(code) ".PP\n" prose(comment)
    } else if (code ~ /^(enum|#define (HIVE|KIWEAMOTU)_[A-Z_]+ )/)
        constants = constants ".PP\n" prose(comment) plain(code)
    comment = code = ""
}
/^#ifndef KIWEAMOTU_H/ { about = comment; comment = ""; next }
/^HIVE_ASSERT|^#(include|ifdef|else|endif|undef|define KIWEAMOTU_H|define HIVE_ASSERT)|^extern|^}$/ { next }
/^$/ { item(); next }
/^\/\*/ { inside = 1; comment = "" }
inside {
    x = $0; ends = sub(/ *\*\/$/, "", x); sub(/^(\/\*| \*) ?/, "", x)
    comment = comment (comment == "" ? "" : "\n") x
    if (ends) { inside = 0; sub(/\n$/, "", comment) }
    next
}
{ code = code $0 "\n" }
END {
    item()
    title = about; sub(/\n.*/, "", title); sub(/\.$/, "", title); sub(/^.*Kiweamotu: /, "", title); sub(/^[^\n]*\n\n?/, "", about)
    printf ".TH KIWEAMOTU 3 \"\" \"Kiweamotu %s\"\n.SH NAME\nkiweamotu \\- %s\n", version, escape(title)
    printf ".SH SYNOPSIS\n.B #include <kiweamotu.h>\n%s.PP\n.B cc \\&... $(pkg\\-config \\-\\-cflags \\-\\-libs kiweamotu)\n", synopsis
    printf ".SH DESCRIPTION\n%s.SH CALLS\n%s.SH ANSWERS\n%s.SH CONSTANTS\n%s.SH SEE ALSO\n.BR hive (1)\n", prose(about), calls, structs, constants
}
