# Reads the works with their units, and then a line `ROUND WHO WORK COUNT TIME` for each run. For each work it prints
# the median of the rounds in nanoseconds per unit, for the library, the twin, RE2 and the kit's `regex` (or the
# programs that `others` names), with the first and the third quartile in brackets; then, likewise, the others' times
# divided by the library's time in the same round. It reports where two programs counted different matches.

BEGIN { most = split(others ? others : "twin re2 kit", other, " ") }

FNR == NR { works[++last] = $1; units[$1] = $2; unit[$1] = $3; next }

$5 ~ /^[0-9]+$/ {
    n = ++runs[$2, $3]
    times[$2, $3, n] = $5
    at[$1, $2, $3] = $5
    if ($1 > rounds) rounds = $1
    if ($3 !~ /^(tight|room|memory)/) {
        if ($3 in counts && counts[$3] != $4) differs[$3] = 1
        counts[$3] = $4
    }
    met[$3] = 1
}

function sort(list, n,    i, j, x) {
    for (i = 2; i <= n; i++) {
        x = list[i]
        for (j = i - 1; j > 0 && list[j] > x; j--) list[j + 1] = list[j]
        list[j + 1] = x
    }
}

function shown(x) { return sprintf(x < 0.1 ? "%.3f" : x < 10 ? "%.2f" : x < 100 ? "%.1f" : "%.0f", x) }

# Returns the median, with the first and the third quartile in brackets.
function spread(list, n) {
    if (n == 0) return "-"
    sort(list, n)
    return shown(list[int((n + 1) / 2)]) " (" shown(list[int((n + 3) / 4)]) "-" shown(list[n - int((n + 3) / 4) + 1]) ")"
}

function time(who, work,    list, n) {
    split("", list)
    for (n = 1; n <= runs[who, work]; n++) list[n] = times[who, work, n] * 1000 / units[work]
    return spread(list, n - 1)
}

function ratio(who, work,    list, n, round) {
    split("", list)
    for (round = 1; round <= rounds; round++)
        if ((round, who, work) in at && at[round, "here", work] > 0)
            list[++n] = at[round, who, work] / at[round, "here", work]
    return spread(list, n + 0)
}

END {
    printf "%-13s %-6s %22s", "work", "ns a", "here"
    for (o = 1; o <= most; o++) printf " %22s", other[o]
    for (o = 1; o <= most; o++) printf " %18s", other[o] "/here"
    print ""
    for (k = 1; k <= last; k++) {
        work = works[k]
        if (!(work in met)) continue
        printf "%-13s %-6s %22s", work, unit[work], time("here", work)
        for (o = 1; o <= most; o++) printf " %22s", time(other[o], work)
        for (o = 1; o <= most; o++) printf " %18s", ratio(other[o], work)
        print ""
        if (work in differs) print work ": the programs counted different numbers"
    }
}
