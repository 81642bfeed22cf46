# Prints the manual page of the tool from its help: awk -v version="$(cat VERSION)" -f tools/man1.awk host/help.txt
# The help has a block of commands, from 'usage:' on, with what each answers behind two blanks or on the next line; a block of options; and paragraphs.
function escape(s) { gsub(/\\/, "\\e", s); gsub(/-/, "\\-", s); if (s ~ /^[.']/) s = "\\&" s; return s }
function trim(s) { gsub(/^ +| +$/, "", s); return s }
# What stands before the first gap of two blanks, and what behind it.
function front(s) { sub(/   *.*$/, "", s); return s }
function behind(s) { return match(s, /   */) ? substr(s, RSTART + RLENGTH) : "" }
function told(s) { print ".TP\n.B " escape(front(s)); if (behind(s) != "") print escape(behind(s)) }
BEGIN {
    printf ".TH HIVE 1 \"\" \"Kiweamotu %s\"\n", version
    print ".SH NAME\nhive \\- checks, reads, repairs and builds a Windows registry hive"
}
/^$/ { block++; if (block > 2) print ".PP"; next }
block == 0 {
    sub(/^usage:/, "      "); line = $0
    if (line ~ /^       [^ ]/) command[++count] = trim(line)
    else command[count] = command[count] "   " trim(line)
    next
}
block == 1 && !listed {
    listed = 1
    print ".SH SYNOPSIS\n.nf"
    for (k = 1; k <= count; k++) print ".B " escape(front(command[k]))
    print ".fi\n.SH COMMANDS"
    for (k = 1; k <= count; k++) told(command[k])
    print ".SH OPTIONS"
}
block == 1 { told(trim($0)); next }
!begun { begun = 1; print ".SH DESCRIPTION" }
sub(/^Exit status: /, "") { print ".SH EXIT STATUS" }
{ print escape($0) }
END { print ".SH SEE ALSO\n.BR kiweamotu (3)" }
