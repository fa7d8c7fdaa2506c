# Draws a table of table.awk as SVG: for each work, the times of the twin and of RE2 divided by ours, as bars.

BEGIN { left = 90; right = 60; scale = 90; most = 6; height = 11; step = 46 }

function esc(s) { gsub(/&/, "\\&amp;", s); gsub(/</, "\\&lt;", s); return s }

function bar(y, value, colour,    cut) {
    cut = value > most
    printf "<rect x=\"%d\" y=\"%d\" width=\"%.1f\" height=\"%d\" fill=\"%s\"/>\n",
        left, y, (cut ? most : value) * scale, height, colour
    printf "<text x=\"%.1f\" y=\"%d\">%s%s</text>\n", left + (cut ? most : value) * scale + 4, y + 9,
        value, cut ? " (cut off)" : ""
}

# The medians in a line of the table, whose columns are `MEDIAN (QUARTILE-QUARTILE)`.
$2 ~ /^(byte|match|search|line|state)$/ && $1 !~ /[0-9][KM]?$|room/ || $1 ~ /^(first|whole)20$/ {
    n = 0
    for (i = 3; i <= NF; i++)
        if ($i !~ /^\(/) middle[++n] = $i
    names[++count] = $1
    twin[count] = middle[5]
    re2[count] = middle[6]
}

END {
    width = left + most * scale + right + 40
    tall = 50 + count * step
    printf "<svg xmlns=\"http://www.w3.org/2000/svg\" width=\"%d\" height=\"%d\" ", width, tall
    printf "viewBox=\"0 0 %d %d\" font-family=\"sans-serif\" font-size=\"10\">\n", width, tall
    printf "<rect width=\"%d\" height=\"%d\" fill=\"white\"/>\n", width, tall
    print "<text x=\"10\" y=\"16\" font-size=\"12\">Time by ours: a longer bar is a slower program</text>"
    split("here,#2a6f97 twin,#e09f3e RE2,#9e2a2b", keys, " ")
    for (k = 1; k <= 3; k++) {
        split(keys[k], key, ",")
        printf "<rect x=\"%d\" y=\"24\" width=\"10\" height=\"10\" fill=\"%s\"/>", left + 80 * (k - 1), key[2]
        printf "<text x=\"%d\" y=\"33\">%s</text>\n", left + 80 * (k - 1) + 14, key[1]
    }
    for (k = 1; k <= count; k++) {
        y = 46 + (k - 1) * step
        printf "<text x=\"%d\" y=\"%d\" text-anchor=\"end\" font-size=\"11\">%s</text>\n", left - 8, y + 22, esc(names[k])
        bar(y, "1.00", "#2a6f97")
        if (twin[k] != "-") bar(y + 13, twin[k], "#e09f3e")
        if (re2[k] != "-") bar(y + 26, re2[k], "#9e2a2b")
    }
    print "</svg>"
}
