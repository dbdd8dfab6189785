# plot.awk: an SVG of grouped bars from lines of words parted by tabs:
#   title TEXT | axis TEXT (what a bar's length is) | line VALUE TEXT (a mark across) | series NAME.. | bar TEXT VALUE.. (one group)
# A value `-` draws nothing.
BEGIN { FS = "\t"; split("#2b6ca3 #e08a1e #4a9d6b #8a5aa8", colour, " ") }
$1 == "title" { title = $2 }
$1 == "axis" { axis = $2 }
$1 == "line" { lines++; at[lines] = $2; says[lines] = $3; if ($2 + 0 > most) most = $2 + 0 }
$1 == "series" { for (i = 2; i <= NF; i++) name[++series] = $i }
$1 == "bar" {
    label[++groups] = $2
    if (length($2) > longest) longest = length($2)
    for (i = 1; i <= series; i++) { value[groups, i] = $(i + 2); if (value[groups, i] != "-" && value[groups, i] + 0 > most) most = value[groups, i] + 0 }
}
END {
    thick = series > 1 ? 11 : 14; gap = 9
    left = 24 + 7 * longest; wide = 560; top = 56 + (series > 1 ? 20 : 0) + 14 * (lines > 0 ? lines : 0)
    tall = groups * (series * thick + gap); bottom = top + tall
    tick = round_up(most / 6); last = tick * ceil(most * 1.04 / tick)
    printf "<svg xmlns=\"http://www.w3.org/2000/svg\" viewBox=\"0 0 %d %d\" width=\"%d\" height=\"%d\" font-family=\"DejaVu Sans, Arial, sans-serif\" font-size=\"12\">\n", left + wide + 70, bottom + 52, left + wide + 70, bottom + 52
    print "<rect width=\"100%\" height=\"100%\" fill=\"#ffffff\"/>"
    text(16, 26, "start", title, " font-size=\"15\" font-weight=\"bold\"")
    x = left
    if (series > 1) for (i = 1; i <= series; i++) {
        printf "<rect x=\"%.1f\" y=\"40\" width=\"12\" height=\"12\" fill=\"%s\"/>\n", x, colour[i]
        text(x + 17, 50, "start", name[i], "")
        x += 34 + 7.2 * length(name[i])
    }
    for (v = 0; v <= last + tick / 2; v += tick) {
        printf "<line x1=\"%.1f\" y1=\"%d\" x2=\"%.1f\" y2=\"%d\" stroke=\"#dddddd\"/>\n", place(v), top, place(v), bottom
        text(place(v), bottom + 16, "middle", shown(v), "")
    }
    text(left + wide / 2, bottom + 38, "middle", axis, "")
    for (i = 1; i <= lines; i++) {
        y = top - 6 - 14 * (lines - i)
        printf "<line x1=\"%.1f\" y1=\"%.1f\" x2=\"%.1f\" y2=\"%d\" stroke=\"#c03030\" stroke-dasharray=\"5 3\"/>\n", place(at[i]), y - 4, place(at[i]), bottom
        right = place(at[i]) > left + wide * 0.6
        text(place(at[i]) + (right ? -5 : 5), y, right ? "end" : "start", says[i], " fill=\"#c03030\" font-size=\"11\"")
    }
    for (g = 1; g <= groups; g++) {
        y = top + gap / 2 + (g - 1) * (series * thick + gap)
        text(left - 8, y + series * thick / 2 + 4, "end", label[g], "")
        for (i = 1; i <= series; i++) {
            if (value[g, i] == "-") continue
            printf "<rect x=\"%.1f\" y=\"%.1f\" width=\"%.1f\" height=\"%d\" fill=\"%s\"/>\n", left, y + (i - 1) * thick, place(value[g, i]) - left, thick - 1, colour[i]
            text(place(value[g, i]) + 4, y + i * thick - 2, "start", value[g, i], " font-size=\"10\" fill=\"#444444\" stroke=\"#ffffff\" stroke-width=\"3\" paint-order=\"stroke\"")
        }
    }
    printf "<line x1=\"%.1f\" y1=\"%d\" x2=\"%.1f\" y2=\"%d\" stroke=\"#444444\"/>\n", left, top, left, bottom
    print "</svg>"
}
function place(v) { return left + wide * v / last }
function ceil(v) { return v == int(v) ? v : int(v) + 1 }
function shown(v,   s) { s = sprintf("%.3f", v); sub(/\.?0+$/, "", s); return s == "" ? "0" : s }
function round_up(v,   p) { p = 10 ^ int(log(v) / log(10) - (v < 1 ? 1 : 0)); return v <= p ? p : v <= 2 * p ? 2 * p : v <= 5 * p ? 5 * p : 10 * p }
function text(x, y, anchor, s, more) {
    gsub(/&/, "\\&amp;", s); gsub(/</, "\\&lt;", s)
    printf "<text x=\"%.1f\" y=\"%.1f\" text-anchor=\"%s\"%s>%s</text>\n", x, y, anchor, more, s
}
