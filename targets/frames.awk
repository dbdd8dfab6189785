# frames.awk -v back=BYTES USAGE.. ASSEMBLER..: the deepest stack of each call us_NAME, by the frames that the compiler reports (.su) and the
# calls in its assembler (.s); `back` is what a call itself puts on the stack. What is called and not here (memcpy, a division) counts
# nothing and is printed last. A frame that is not of one size, or a recursion, ends it with status 1.
# What stands before a file's first function is no function's.
FNR == 1 { name = "" }
FILENAME ~ /\.su$/ {
    name = $0
    sub(/\t.*$/, "", name); sub(/^.*\.(ll|c|s):([0-9]+:)*/, "", name)
    many = split($0, part, "\t")
    if (part[3] != "static") fail("the frame of " name " is " part[3])
    frame[name] = part[2] + back
    next
}
/^[A-Za-z_][A-Za-z0-9_.]*:/ { name = $0; sub(/:.*$/, "", name); if (!(name in frame)) name = ""; next }
/^\.Lfunc_end/ { name = ""; next }
name != "" && /^\t[a-z.]+\t/ {
    callee = $0
    sub(/^\t[a-z.]+\t/, "", callee); sub(/[ \t]*[@#;\/].*$/, "", callee); sub(/^.*, */, "", callee); sub(/^:[a-z0-9]*:/, "", callee); sub(/[-+(].*$/, "", callee)
    # Wherever a function's name stands it may be called, through a register too (Thumb at -Oz); a name that is not here, where it is a plain call or jump.
    if (callee in frame || $1 ~ /^(b|bl|blx|call|callq|jmp|jal|j|tail|b\.w)$/ && callee ~ /^[A-Za-z_][A-Za-z0-9_.]*$/ && callee !~ /^(r[0-9]+|lr)$/) {
        if (!((name, callee) in seen)) calls[name] = calls[name] "\n" callee
        seen[name, callee] = 1
    }
}
function fail(why) { print "frames: " why > "/dev/stderr"; bad = 1; exit 1 }
function depth(f,   list, many, i, d, most) {
    if (!(f in frame)) { if (!(f in outside)) { outside[f] = 1; needs = needs (needs == "" ? "" : " ") f } return 0 }
    if (f in deep) { if (deep[f] < 0) fail("recursion at " f); return deep[f] }
    deep[f] = -1
    most = 0
    many = split(calls[f], list, "\n")
    for (i = 1; i <= many; i++) if (list[i] != "" && (d = depth(list[i])) > most) most = d
    return deep[f] = frame[f] + most
}
END {
    if (bad) exit 1
    for (f in frame) if (f ~ /^us_/ && f !~ /^us_core_/) print f "\t" depth(f)
    print "needs\t" needs
}
