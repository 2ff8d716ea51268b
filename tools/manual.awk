# The comments of ccollect.h as a manual page: awk -v version=TEXT -f tools/manual.awk include/ccollect.h > ccollect.3
#
# The comment at the head of the file gives the sections: a paragraph that begins by words in capitals and a full stop or a comma
# begins one. What stands below it gives CALLS: each comment as text, and under it the lines of code up to the next.

# For the printer: no character of a line means anything but itself.
function plain(text) {
    gsub(/\\/, "\\e", text)
    gsub(/-/, "\\-", text)
    gsub(/\^/, "\\(ha", text)
    gsub(/~/, "\\(ti", text)
    if (text ~ /^[.']/) text = "\\&" text
    return text
}

# Words of prose: the names of the interface are set bold.
function prose(text,    done, word) {
    text = plain(text)
    gsub(/`/, "", text)
    while (match(text, /(cc|CC|rattle)_[A-Za-z0-9_]+/)) {
        word = substr(text, RSTART, RLENGTH)
        done = done substr(text, 1, RSTART - 1) "\\fB" word "\\fR"
        text = substr(text, RSTART + RLENGTH)
    }
    return done text
}

function print_prose(text) {
    if (text != "") print prose(text)
}

# A paragraph of the comment at the head.
function print_paragraph(text,    heading) {
    if (text == "") return
    if (!is_named) {
        sub(/^ccollect\.h: /, "", text)
        heading = text
        sub(/\.( .*)?$/, "", heading)
        print ".SH NAME"
        print "ccollect \\- " prose(heading)
        print ".SH SYNOPSIS"
        print ".nf"
        print "#include <ccollect.h>"
        print ""
        print "cc prog.c $(pkg\\-config \\-\\-cflags \\-\\-libs ccollect) \\-o prog"
        print ".fi"
        print ".SH DESCRIPTION"
        is_named = 1
        return
    }
    if (match(text, /^[A-Z][A-Z ]+[A-Z][.,]/)) {
        print ".SH " substr(text, 1, RLENGTH - 1)
        heading = substr(text, RLENGTH, 1)
        text = substr(text, RLENGTH + 2)
        if (heading == ",") text = toupper(substr(text, 1, 1)) substr(text, 2)
        print_prose(text)
        return
    }
    if (sub(/^- /, "", text)) print ".IP \\(bu 2"
    else print ".PP"
    print_prose(text)
}

function end_code() {
    if (!is_code) return
    print ".fi"
    is_code = 0
}

function code(text) {
    if (!is_code) print ".PP\n.nf"
    is_code = 1
    print plain(text)
}

BEGIN { print ".TH CCOLLECT 3 \"\" \"ccollect " version "\" \"Library Functions Manual\"" }

# The head
FNR == 1 { in_head = 1; sub(/^\/\* /, " * ") }
in_head {
    is_last = sub(/ *\*\/ *$/, "")
    sub(/^ \* ?/, "")
    if ($0 == "" || $0 ~ /^- /) {
        print_paragraph(paragraph)
        paragraph = ""
    }
    sub(/^ +/, "")
    paragraph = paragraph (paragraph == "" ? "" : " ") $0
    if (is_last) {
        print_paragraph(paragraph)
        print ".SH CALLS"
        in_head = 0
    }
    next
}

# What stands below it: no lines for the compiler alone
/^#define CC_/ { end_code(); code($0); next }
/^#/ || /^extern "C"/ || /^}$/ { next }
/^\/\*/ { end_code(); in_comment = 1; sub(/^\/\* /, ""); paragraph = "" }
in_comment {
    is_last = sub(/ *\*\/ *$/, "")
    sub(/^ \* ?/, "")
    paragraph = paragraph (paragraph == "" ? "" : " ") $0
    if (is_last) {
        in_comment = 0
        print_paragraph(paragraph)
    }
    next
}
/^$/ { end_code(); next }
{ code($0) }
END { end_code() }
