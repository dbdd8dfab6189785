# frames.awk: from `objdump -d -r` of the archive, the deepest stack of each exported call by its frames: what it and all that it calls
# push, subtract and write below it without subtracting, with the return addresses. Each function is followed along its jumps, so that what
# counts at a call is what stands on the stack there. Functions that are not in the archive (memcpy, memset) count their return address
# alone. A recursion, a call through a pointer, another change of the stack pointer or a place that is reached with two depths, any of
# which could be deeper, ends it with status 1.
/^[0-9a-f]+ <.*>:$/ { follow(); name = substr($0, index($0, "<") + 1); sub(/>:$/, "", name); known[name] = 1; lines = 0; next }
name == "" { next }
/^ +[0-9a-f]+:\t/ {
    at = $1; sub(/:$/, "", at); text = $0; sub(/^[^\t]*\t/, "", text)
    line[++lines] = text; place[at] = lines; there[lines] = ""; next
}
/R_X86_64_(PLT32|PC32)\t/ {
    callee = $NF
    sub(/[+-]0x[0-9a-f]+$/, "", callee)
    sub(/^\.text\./, "", callee)
    there[lines] = callee
}
END {
    follow()
    for (f in known) if (f ~ /^us_/) print f "\t" depth(f, 0)
    if (bad != "") { print bad > "/dev/stderr"; exit 1 }
}
# The depth at each line of the function, and from that what it may call at which depth.
function follow(   i, d, x, jumped) {
    if (name == "" || lines == 0) { lines = 0; return }
    for (i = 1; i <= lines; i++) level[i] = ""
    reach(1, 8); jumped = ""
    do {
        while (waiting > 0) {
            i = wait[waiting--]; d = level[i]; x = line[i]
            if (d > most[name]) most[name] = d
            if (match(x, /[ ,]-0x[0-9a-f]+\(%rsp/)) below(d + hex(substr(x, RSTART + 4, RLENGTH - 9)))
            if (x ~ /^push/) reach(i + 1, d + 8)
            else if (x ~ /^pop/) reach(i + 1, d - 8)
            else if (x ~ /^sub +\$0x[0-9a-f]+,%rsp/) reach(i + 1, d + number(x))
            else if (x ~ /^add +\$0x[0-9a-f]+,%rsp/) reach(i + 1, d - number(x))
            else if (x ~ /^(notrack +)?jmp +\*/) jumped = d
            else if (x ~ /^call +\*/) wrong("a call through a pointer in " name)
            else if (x ~ /^call/) { callAt(there[i], d); reach(i + 1, d) }
            else if (x ~ /^jmp/) { if (there[i] != "" && there[i] != name) callAt(there[i], d - 8); else reach(target(x), d) }
            else if (x ~ /^j[a-z]+ /) { if (there[i] != "" && there[i] != name) callAt(there[i], d - 8); else reach(target(x), d); reach(i + 1, d) }
            else if (x ~ /^(ret|ud2)/) continue
            else if (x ~ /,%rsp$/ || x ~ /^leave/) wrong("the stack pointer is changed otherwise in " name ": " x)
            else reach(i + 1, d)
        }
        # The lines that a jump through a table leads to: they stand behind one from which nothing goes on.
        if (jumped != "") for (i = 2; i <= lines; i++) if (level[i] == "" && line[i] !~ /^(nop|cs nop|data16|xchg +%ax,%ax|int3)/ && line[i - 1] ~ /^((notrack +)?jmp|ret|ud2|nop|cs nop|data16)/) { reach(i, jumped); break }
    } while (waiting > 0)
    for (i in place) delete place[i]
    lines = 0
}
function reach(i, d) {
    if (i > lines || i == 0) { return }
    if (level[i] == "") { level[i] = d; wait[++waiting] = i } else if (level[i] != d) wrong("two depths in " name ": " line[i])
}
function callAt(f, d) { if (!((name, f) in deep)) { calls[name] = calls[name] "\n" f; deep[name, f] = d } else if (d > deep[name, f]) deep[name, f] = d }
function target(x,   t) { t = x; sub(/^[a-z]+ +/, "", t); sub(/ .*/, "", t); if (!(t in place)) wrong("a jump out of " name ": " x); return place[t] + 0 }
function number(x) { match(x, /0x[0-9a-f]+/); return hex(substr(x, RSTART + 2, RLENGTH - 2)) }
function below(d) { if (d > most[name]) most[name] = d }
function wrong(what) { if (bad == "") bad = what }
function hex(s,   i, v) { for (i = 1; i <= length(s); i++) v = v * 16 + index("0123456789abcdef", substr(s, i, 1)) - 1; return v }
function depth(f, level,   list, many, i, d, deepest) {
    if (level > 50) { wrong("recursion at " f); return 0 }
    if (!(f in known)) return 8
    deepest = most[f] + 0
    many = split(calls[f], list, "\n")
    for (i = 1; i <= many; i++) if (list[i] != "" && (d = deep[f, list[i]] + depth(list[i], level + 1)) > deepest) deepest = d
    return deepest
}
