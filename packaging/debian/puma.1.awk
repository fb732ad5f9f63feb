# Makes the manual page puma.1 of what `puma --help` prints: each of its lines as it stands, under the headings of a
# manual. The text itself stands in crates/puma_cli/src/help.rt alone.

# A line as roff prints it unchanged.
function plain(line) {
    gsub(/\\/, "\\e", line)
    gsub(/-/, "\\-", line)
    if (line ~ /^[.']/) line = "\\\\&" line
    return line
}

function heading(text) {
    if (is_verbatim) print ".fi"
    is_verbatim = 0
    print ".SH " text
}

function verbatim() {
    if (!is_verbatim) print ".nf"
    is_verbatim = 1
}

BEGIN {
    print ".TH PUMA 1 \"\" \"puma " version "\" \"User Commands\""
    print ".nh"
    print ".ad l"
    headings["Usage:"] = "SYNOPSIS"
    headings["puma"] = "COMMANDS"
    headings["Flags"] = "OPTIONS"
    headings["A"] = "STACK FILES"
    headings["Rules"] = "RULES"
    headings["What"] = "DIAGNOSTICS"
    headings["Exit"] = "EXIT STATUS"
    headings["Documents,"] = "SEE ALSO"
}

NR == 1 {
    heading("NAME")
    print plain($0)
    heading("DESCRIPTION")
    next
}

# The first line of a part that has a heading of its own.
was_empty && $1 in headings && $0 !~ /^ / {
    if (headings[$1] != last) heading(headings[$1])
    else if (is_verbatim) print ""
    last = headings[$1]
    was_empty = 0
    verbatim()
    print plain($0)
    next
}

/^$/ {
    was_empty = 1
    next
}

{
    verbatim()
    if (was_empty) print ""
    was_empty = 0
    print plain($0)
}

END {
    heading("FILES")
    print "The documents and the examples are in"
    print ".IR /usr/share/doc/puma\\-rattle ;"
    print "where the text above names a folder of the repository, or"
    print ".IR bin/puma ,"
    print "look there, and call"
    print ".BR puma ."
    if (is_verbatim) print ".fi"
}
