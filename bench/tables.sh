# shellcheck shell=bash disable=SC2016
# Sourced by bench/run and bench/gate: tables and plots from what the measuring programs print.

# put_table NAME: the table between the marks of that name, in bench/README.md or bench/CALLS.md, becomes build/bench/NAME.md.
put_table() {
    local page
    page=$(grep -lxF "<!-- $1 -->" bench/README.md bench/CALLS.md) || fail "no page of bench/ has a place for the table $1"
    awk -v open="<!-- $1 -->" -v end="<!-- end of $1 -->" -v table="build/bench/$1.md" '
        $0 == end { inside = 0 }
        !inside { print }
        $0 == open { inside = 1; while ((getline line < table) > 0) print line }' "$page" >build/bench/page.new &&
        cp build/bench/page.new "$page"
}

# pairs: defines the awk function `get(key)` on lines of key=value.
pairs='function get(key,   i, pair) { for (i = 2; i <= NF; i++) { split($i, pair, "="); if (pair[1] == key) return pair[2] } return "-" }
       function shape() { return get("size") " x " get("units") }'

table_mix() {
    echo '| Units | Full | Files | Steps per byte | Bytes programmed per byte | Bytes erased per byte | Erases per 1,000 fields | Time per field, ms | Endurance |'
    echo '|---|---|---|---|---|---|---|---|---|'
    awk "$pairs"'$1 == "mix" && get("rule") == "tightest" && get("length") > 0 { fields = get("user") / 2; writes = (get("steps") - get("erases")) / fields; erases = get("erases") / fields
        printf "| %s | %d %% | %d | %.2f | %.2f | %.2f | %.2f | %.2f | %.0f %% |\n", shape(), get("percent"), get("files"), get("steps/byte"),
            get("programmed/byte"), get("erased/byte"), 1000 * erases, writes * 0.03 + erases * 500, 100 * get("endurance") }' "$1"
}

table_capacity() {
    echo '| File length | Units | Files, one a transaction | of the image | Files, all in one transaction | of the image |'
    echo '|---|---|---|---|---|---|'
    awk "$pairs"'$1 == "capacity" && get("rule") == "tightest" { printf "| %d | %s | %d | %.1f %% | %d | %.1f %% |%s\n", get("length"), shape(), get("files"), get("percent"),
        get("at-once"), get("at-once-percent"), get("numbers") == "left" ? "" : " no file number was left" }' "$1"
}

table_wear() {
    echo '| Units | Rewrites | Units worn | Erases of one unit | Erases of all | Steps per byte | Bytes programmed per byte | Bytes erased per byte | Endurance |'
    echo '|---|---|---|---|---|---|---|---|---|'
    awk "$pairs"'$1 == "wear" && get("rule") == "tightest" { printf "| %s | %d | %d of %d | %d | %d | %.2f | %.2f | %.2f | %.1f %% |\n", shape(), get("updates"), get("worn"), get("units"),
        get("most"), get("erases"), get("steps/byte"), get("programmed/byte"), get("erased/byte"), 100 * get("endurance") }' "$1"
}

# Both rules side by side: what updates cost, and how much there is room for.
table_rules() {
    echo '| Lengths | Units | Full | Erases, smallest gap | lowest | Bytes programmed per byte, smallest gap | lowest | Refused, smallest gap | lowest | Endurance, smallest gap | lowest |'
    echo '|---|---|---|---|---|---|---|---|---|---|---|'
    awk "$pairs"'$1 == "mix" { key = get("length") " " shape() " " get("percent"); rule = get("rule")
          if (!(key in seen)) { seen[key] = 1; order[++many] = key; name[key] = sprintf("| %s | %s | %d %% |", get("length") == 0 ? "0 to 256" : get("length"), shape(), get("percent")) }
          erases[key, rule] = get("erases"); programmed[key, rule] = get("programmed/byte"); refused[key, rule] = get("refused"); endurance[key, rule] = 100 * get("endurance") }
        END { for (i = 1; i <= many; i++) { k = order[i]
              if ((k, "tightest") in erases && (k, "lowest") in erases)
              printf "%s %d | %d | %.2f | %.2f | %d | %d | %.0f %% | %.0f %% |\n", name[k], erases[k, "tightest"], erases[k, "lowest"], programmed[k, "tightest"], programmed[k, "lowest"],
                  refused[k, "tightest"], refused[k, "lowest"], endurance[k, "tightest"], endurance[k, "lowest"] } }' "$1"
}

table_rooms() {
    echo '| Files until NO ROOM, one a transaction | Units | Smallest gap: files | of the image | Lowest: files | of the image |'
    echo '|---|---|---|---|---|---|'
    awk "$pairs"'$1 == "capacity" || $1 == "lengths" { key = $1 " " get("length") " " shape(); rule = get("rule")
          if (!(key in seen)) { seen[key] = 1; order[++many] = key; name[key] = sprintf("| %s | %s |", $1 == "lengths" ? "0 to 256 bytes, mean of " get("runs") : get("length") " bytes", shape()) }
          files[key, rule] = get("files"); percent[key, rule] = get("percent") }
        END { for (i = 1; i <= many; i++) { k = order[i]
              printf "%s %s | %s %% | %s | %s %% |\n", name[k], files[k, "tightest"], percent[k, "tightest"], files[k, "lowest"], percent[k, "lowest"] } }' "$1"
}

# table_calls TIMES INSTRUCTIONS second|judge: the ratio of instructions, and in brackets that of times, by call and image.
table_calls() {
    joined "$1" "$2" | awk -F '\t' -v to="$3" '
        { image = $1 " x " $2; row = "`" $4 "` | " $5
          if (!(image in seen)) { seen[image] = 1; images[++columns] = image }
          if (!(row in found)) { found[row] = 1; rows[++many] = row }
          if (to == "second") cell[row, image] = $8 " (" $6 ")"; else if ($7 != "") { cell[row, image] = $9 " (" $7 ")"; kept[row] = 1 } }
        END { head = "| Call | In |"; rule = "|---|---|"
              for (c = 1; c <= columns; c++) { head = head " " images[c] " |"; rule = rule "---|" }
              print head; print rule
              for (r = 1; r <= many; r++) {
                  if (to == "judge" && !(rows[r] in kept)) continue
                  line = "| " rows[r] " |"
                  for (c = 1; c <= columns; c++) line = line " " cell[rows[r], images[c]] " |"
                  print line } }'
}

# Lines of size, units, number, call, situation, time over second, time over judge, instructions over second and over judge, and instructions.
joined() {
    awk -F '\t' 'function of(key,   i) { for (i = 6; i <= NF; i++) if (index($i, key "=") == 1) return substr($i, length(key) + 2) }
        NR == FNR { second[$1, $2, $3] = of("second"); judge[$1, $2, $3] = of("judge"); next }
        { printf "%s\t%s\t%s\t%s\t%s\t%.2f\t%s\t%.2f\t%s\t%d\n", $1, $2, $3, $4, $5, second[$1, $2, $3], $4 == "us_format" ? "" : sprintf("%.2f", judge[$1, $2, $3]),
            $6 / $7, $4 == "us_format" ? "" : sprintf("%.2f", $6 / $8), $6 }' "$1" "$2"
}

# table_stack PAINTED FRAMES
table_stack() {
    echo '| Call | Painted, bytes | By frames, bytes | Deepest on | Second program, painted |'
    echo '|---|---|---|---|---|'
    awk -F '\t' 'NR == FNR { frames[$1] = $2; next }
        $1 == "store" { order[++many] = $2; bytes[$2] = $3; where[$2] = $4 " x " $5 ($6 == "" ? "" : ", " $6); next }
        { second[$2] = $3 }
        END { for (i = 1; i <= many; i++) { c = order[i]; printf "| `%s` | %d | %d | %s | %d |\n", c, bytes[c], frames[c], where[c], second[c] } }' "$2" "$1"
}

table_gate() {
    echo '| Crate | Proof, s | Must-fail edits | In checks | Tried in, s | Largest process, MB |'
    echo '|---|---|---|---|---|---|'
    awk -F '\t' 'NR > 1 { printf "| `%s` | %s | %s | %s | %s | %s |\n", $1, $2, $3, $6, $4, $5
                         p += $2; e += $3; c += $6; t += $4; if ($5 + 0 > m) m = $5 }
        END { printf "| all | %d | %d | %d | %d | %s |\n", p, e, c, t, m }' "$1"
}

# The plots, as bench/plot.awk reads them.
plot_mix() { # plot_mix FILE KEY TITLE AXIS [FACTOR]
    printf 'title\t%s\naxis\t%s\nseries\t20 %% full\t50 %% full\t90 %% full\n' "$3" "$4"
    awk "$pairs"'$1 == "mix" && get("rule") == "tightest" && get("length") > 0 { if (!(shape() in line)) { order[++many] = shape() } line[shape()] = line[shape()] "\t" sprintf("%.2f", get("'"$2"'") * '"${5:-1}"') }
        END { for (i = 1; i <= many; i++) print "bar\t" order[i] line[order[i]] }' "$1"
}

plot_capacity() {
    printf 'title\tRoom for equal files\naxis\tuser data in %% of the image\nseries\tone file a transaction\tall in one transaction\n'
    awk "$pairs"'$1 == "capacity" && get("rule") == "tightest" { printf "bar\t%d bytes, %s\t%s\t%s\n", get("length"), shape(), get("percent"), get("at-once-percent") }' "$1"
}

plot_calls() { # plot_calls TIMES INSTRUCTIONS SIZE UNITS
    printf 'title\tEach call beside the second program, %s x %s\naxis\tratio, below 1: faster than the second program\nline\t1\tas slow as the second program\nseries\ttime\tinstructions\n' "$3" "$4"
    joined "$1" "$2" | awk -F '\t' -v size="$3" -v units="$4" '$1 == size && $2 == units { printf "bar\t%s%s\t%s\t%s\n", $4, $5 == "" ? "" : ", " $5, $6, $8 }'
}

plot_judge() { # plot_judge TIMES INSTRUCTIONS SIZE UNITS
    printf 'title\tEach call beside the judge, %s x %s\naxis\tratio to the judge on the same image\nline\t2\tmount of a sound image: 2\nline\t3\twrite: 3\nline\t5\twrite with a reclaim: 5\nseries\ttime\tinstructions\n' "$3" "$4"
    joined "$1" "$2" | awk -F '\t' -v size="$3" -v units="$4" '$1 == size && $2 == units && $7 != "" { printf "bar\t%s%s\t%s\t%s\n", $4, $5 == "" ? "" : ", " $5, $7, $9 }'
}

plot_stack() { # plot_stack PAINTED FRAMES
    printf 'title\tDeepest stack of each call\naxis\tbytes\nline\t1024\taim: 1 KiB\nline\t2048\tcommit, abort, mount: 2 KiB\nseries\tpainted\tby frames\n'
    awk -F '\t' 'NR == FNR { frames[$1] = $2; next } $1 == "store" { printf "bar\t%s\t%s\t%s\n", $2, $3, frames[$2] }' "$2" "$1"
}

plot_gate() {
    printf 'title\tThe gate by crate\naxis\tseconds\nseries\tproof\tmust-fail edits\n'
    awk -F '\t' 'NR > 1 { printf "bar\t%s\t%s\t%s\n", $1, $2, $4 }' "$1"
}
