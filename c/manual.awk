# Writes hunkravy(3) from the headers: each comment as text, and the declaration after it as it is.
function escaped(line) {
    gsub(/\\/, "\\e", line)
    gsub(/-/, "\\-", line)
    return line ~ /^[.']/ ? "\\&" line : line
}
function end_code() {
    if (is_code) print ".fi"
    is_code = 0
    is_new = 1
}
# Begins a paragraph, unless one begins here anyway.
function paragraph() {
    if (is_new && !is_headed) print ".PP"
    is_new = is_headed = 0
}
BEGIN {
    print ".TH HUNKRAVY 3 " date " \"hunkravy " version "\" \"Library Functions Manual\"\n.SH NAME"
    print "hunkravy \\- AEGIS ciphers, MACs, record streams and random\\-access files\n.SH DESCRIPTION"
    print "The sections are the comments of the headers, each with what it declares."
}
FNR == 1 {
    name = FILENAME
    sub(/.*\//, "", name)
    print ".SH " toupper(name) "\n.nf\n#include <" name ">\n.fi"
    is_new = 1
}
/^\/\* ---- / { end_code(); gsub(/^\/\* ---- | \*\/$/, ""); print ".SS " escaped($0); is_headed = 1; next }
/^\/\*/ { end_code(); is_text = 1 }
is_text {
    is_last = /\*\/$/
    gsub(/^\/\* ?|^ \*( |$)| ?\*\/$/, "")
    sub(/^ +/, "")
    if (sub(/^- /, "")) { print ".IP \\(bu 2"; is_new = is_headed = 0 }
    if (/^$/) is_new = 1
    else { paragraph(); print escaped($0) }
    is_text = !is_last
    next
}
/^$|^#(if|el|endif|include)|^extern|^}$|^#define HUNKRAVY_(H|[A-Z]*_H|MUST_USE.*|NONNULL.*)$/ { end_code(); next }
{
    if (!is_code) { is_new = 1; paragraph(); print ".nf" }
    is_code = 1
    print escaped($0)
}
END {
    end_code()
}
