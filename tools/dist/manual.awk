# Lays out the manual of a program as a manual page. A line "# Title" begins a section. Of an indented line what
# precedes two spaces is a term, and what follows describes it; a line that is indented further continues the
# description. Other indented lines are left as they are, and the rest is filled.
function escaped(text) {
    gsub(/\\/, "\\e", text)
    gsub(/-/, "\\-", text)
    sub(/^[.']/, "\\\\\\&&", text)
    while (match(text, /`[^`]*`/))
        text = substr(text, 1, RSTART - 1) "\\fB" substr(text, RSTART + 1, RLENGTH - 2) "\\fR" \
            substr(text, RSTART + RLENGTH)
    return text
}
/^# / { print ".SH " toupper(substr($0, 3)); next }
/^                    / { sub(/^ */, ""); print escaped($0); next }
/^    / {
    sub(/^ */, "")
    at = match($0, /  +/)
    term = at ? substr($0, 1, at - 1) : $0
    rest = at ? substr($0, at + RLENGTH) : ""
    print (term ~ /^-/ ? ".TP\n\\fB" escaped(term) "\\fR" : ".br\n\\ \\ \\ " escaped(term))
    if (rest) print escaped(rest)
    next
}
/^$/ { print ".PP"; next }
{ print escaped($0) }
