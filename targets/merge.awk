# merge.awk -v words=WORDS MODULE..: the modules of several crates as one, for no machine: a function that several have is there once, and
# has to be the same in each; its name becomes one that every assembler takes, and so does that of a constant. The functions for C that the kit exports, which follow
# x86-64's calling convention, are left out; what each of them calls, CRATE::us_NAME, is called by us_core_NAME and exported so: that takes the same, but where a struct
# is given back it comes first, as a pointer %out to its fields, each where x86-64 has it. A struct that is loaded whole is made of its fields where machines
# with shorter pointers would look for one elsewhere. An address is taken as a number of 8 bytes (`ptrtoint`), since `ptrtoaddr` gives one of 4 there. `words` go to the attributes of every function.
FNR == 1 { file++; inside = "" }
/^; / || /^$/ || /^source_filename = / || /^target (triple|datalayout) = / { if (inside == "") next }
/^define / { inside = name_of($0); order[file, ++many[file]] = inside; body[file, inside] = $0 "\n"; next }
inside != "" { sub(/ +; preds = .*$/, ""); if (/^  %[A-Za-z0-9_.]+ = ptrtoaddr ptr /) sub(/ = ptrtoaddr /, " = ptrtoint "); body[file, inside] = body[file, inside] loaded($0) "\n"; if ($0 == "}") inside = ""; next }
/^attributes #[0-9]+ = / { key = $2; sub(/^attributes #[0-9]+ = /, ""); gsub(/ "probe-stack"="inline-asm"| "stack-probe-size"="[0-9]*"| "target-cpu"="x86-64"/, ""); group[file, key] = $0; next }
/^![0-9]+ = / { key = $1; sub(/^![0-9]+ = /, ""); note[file, key] = $0; next }
/^declare / { declares[file, ++declared[file]] = $0; next }
/^@[A-Za-z0-9_.]+ = private unnamed_addr constant \[[0-9]+ x i8\] (c"[^"]*"|zeroinitializer), align 1$/ { key = $1; sub(/^[^=]*= /, ""); constant[file, key] = $0; constant_number($0); next }
/^!llvm.ident = / { ident[file] = $3; next }
{ fail("a line that is not known: " $0) }

# A struct that is loaded whole, and has a field elsewhere where pointers are shorter, is made of its fields, each loaded from where x86-64 has it.
function loaded(text,   v, type, from, align, many, parts, i, size, less, at, short, same, code) {
    if (text !~ /^  %[A-Za-z0-9_.]+ = load \{ [a-z0-9, ]* \}, ptr %[A-Za-z0-9_.]+, align [0-9]+$/) return text
    v = type = from = align = text
    sub(/^ +/, "", v); sub(/ = .*$/, "", v)
    sub(/^.* = load /, "", type); sub(/, ptr %.*$/, "", type)
    sub(/^.*, ptr /, "", from); sub(/, align.*$/, "", from)
    sub(/^.*, align /, "", align)
    many = split(substr(type, 3, length(type) - 4), parts, ", ")
    at = short = 0
    same = 1
    code = ""
    for (i = 1; i <= many; i++) {
        if (parts[i] !~ /^(ptr|i8|i16|i32|i64)$/) return text
        size = parts[i] == "ptr" ? 8 : substr(parts[i], 2) / 8
        less = parts[i] == "ptr" ? 4 : size
        at = int((at + size - 1) / size) * size; short = int((short + less - 1) / less) * less
        if (at != short) same = 0
        code = code "  " v ".at" i " = getelementptr i8, ptr " from ", i64 " at "\n  " v ".field" i " = load " parts[i] ", ptr " v ".at" i ", align " (size < align + 0 ? size : align) "\n"
        code = code "  " v (i < many ? ".with" i : "") " = insertvalue " type " " (i > 1 ? v ".with" i - 1 : "undef") ", " parts[i] " " v ".field" i ", " i - 1 (i < many ? "\n" : "")
        at += size; short += less
    }
    return same ? text : code
}
function fail(why) { if (!failed) print "merge: " why > "/dev/stderr"; failed = 1; exit 1 }
function name_of(text) { return match(text, /@("[^"]*"|[A-Za-z0-9_.$]+)\(/) ? substr(text, RSTART, RLENGTH - 1) : fail("no name: " text) }

# The text with the groups of attributes and the notes numbered through all modules.
function numbered(f, text,   out, key) {
    out = ""
    while (match(text, /( #|!)[0-9]+/)) {
        key = substr(text, RSTART, RLENGTH)
        out = out substr(text, 1, RSTART - 1) (key ~ /#/ ? " #" group_number(f, substr(key, 2), text ~ /^define /) : "!" note_number(f, key))
        text = substr(text, RSTART + RLENGTH)
    }
    return out text
}
function group_number(f, key, ours,   text) {
    if (!((f, key) in group)) fail("no attributes " key)
    text = group[f, key]
    if (ours && words != "") sub(/ \}$/, " " words " }", text)
    if (!(text in group_of)) { group_of[text] = groups + 0; groups_text[groups++] = text }
    return group_of[text]
}
function note_number(f, key,   text) {
    if (!((f, key) in note)) fail("no note " key)
    text = note[f, key]
    if (!(text in note_of)) { note_of[text] = notes + 0; notes_text[notes++] = text }
    return note_of[text]
}

# The text with the names of constants as those that all modules have: one for each text.
function constants(f, text,   out, key) {
    out = ""
    while (match(text, /@[A-Za-z0-9_.]+/)) {
        key = substr(text, RSTART, RLENGTH)
        out = out substr(text, 1, RSTART - 1) ((f, key) in constant ? constant_number(constant[f, key]) : key)
        text = substr(text, RSTART + RLENGTH)
    }
    return out text
}
function constant_number(text) {
    if (!(text in constant_of)) { constant_of[text] = constant_count + 0; constant_text[constant_count++] = text }
    return "@constant." constant_of[text]
}

# The text with the names of functions that are in quotation marks as plain ones.
function called_plainly(text,   out, name, plain) {
    out = ""
    while (match(text, /@"[^"]*"/)) {
        name = substr(text, RSTART, RLENGTH)
        plain = plain_of[name]
        if (plain == "") {
            plain = name
            gsub(/"/, "", plain); gsub(/::/, ".", plain); gsub(/[^@A-Za-z0-9_.]/, "_", plain)
            if (plain in owner) fail(name " and " owner[plain] " would have one name")
            plain_of[name] = plain; owner[plain] = name
        }
        out = out substr(text, 1, RSTART - 1) plain
        text = substr(text, RSTART + RLENGTH)
    }
    return out text
}

# The function of that name, which calls the one of the text. A struct that is given back as two fields is put where %out points to.
function exported(name, text, pointer,   head, gives, marks, arguments, passed, many, parts, word, n, i, fields, at, size, code) {
    head = text
    sub(/\n.*$/, "", head)
    match(head, /@[A-Za-z0-9_.]+\(/)
    gives = substr(head, 1, RSTART - 2)
    sub(/^define internal /, "", gives)
    while (match(gives, /^(noundef|zeroext|signext) /)) gives = substr(gives, RLENGTH + 1)
    match(head, /@[A-Za-z0-9_.]+\(/)
    arguments = substr(head, RSTART + RLENGTH)
    marks = arguments
    sub(/^.*\) /, "", marks)
    core = substr(head, RSTART, RLENGTH - 1)
    sub(/\) #[0-9]+ \{$/, "", arguments)
    passed = ""
    many = split(arguments, parts, ", ")
    for (i = 1; i <= many; i++) { n = split(parts[i], word, " "); passed = passed (i > 1 ? ", " : "") word[1] " " (pointer && i == 1 ? "%out" : word[n]) }
    if (pointer) sub(/%[A-Za-z0-9_.]+/, "%out", arguments)
    if (gives ~ /^\{/) {
        fields = gives
        sub(/^\{ /, "", fields); sub(/ \}$/, "", fields)
        many = split(fields, parts, ", ")
        code = "  %r = call " gives " " core "(" passed ")\n"
        at = 0
        for (i = 1; i <= many; i++) {
            if (parts[i] !~ /^i(8|16|32|64)$/) fail(name " gives back a struct with " parts[i])
            size = substr(parts[i], 2) / 8
            at = int((at + size - 1) / size) * size
            code = code "  %x" i " = extractvalue " gives " %r, " i - 1 "\n  %p" i " = getelementptr i8, ptr %out, i64 " at "\n  store " parts[i] " %x" i ", ptr %p" i ", align " size "\n"
            at += size
        }
        return "define void " name "(ptr noundef %out" (arguments == "" ? "" : ", ") arguments ") " marks "\nstart:\n" code "  ret void\n}\n"
    }
    if (gives == "void") return "define void " name "(" arguments ") " marks "\nstart:\n  call void " core "(" passed ")\n  ret void\n}\n"
    return "define " gives " " name "(" arguments ") " marks "\nstart:\n  %r = call " gives " " core "(" passed ")\n  ret " gives " %r\n}\n"
}

END {
    if (failed) exit 1
    for (f = 1; f <= file; f++) for (i = 1; i <= many[f]; i++) {
        name = order[f, i]
        if (body[f, name] ~ /^define internal /) continue
        if (name !~ /^@us_[a-z_]+$/) fail("an exported function that is none of us_..: " name)
        left_out[f, name] = 1
        core = ""
        for (k = 1; k <= many[f]; k++) if (order[f, k] ~ ("^@\"[a-z_0-9]+::" substr(name, 2) "\"$") && index(body[f, name], " " order[f, k] "(")) { if (core != "") fail("two functions behind " name); core = order[f, k] }
        if (core == "" || index(body[f, name], "call ") == 0) fail("no function behind " name)
        if (core in exports_as) continue
        exports_as[core] = "@us_core_" substr(name, 5)
        # The kit gives back a struct of two fields as a value, and a larger one through a pointer.
        by_pointer[core] = body[f, core] ~ /^define internal void / && body[f, name] !~ /^define void /
        exports++
    }
    if (!exports) fail("nothing is exported")
    print "source_filename = \"undernshade\""
    for (i = 0; i < constant_count; i++) print "@constant." i " = " constant_text[i]
    for (f = 1; f <= file; f++) for (i = 1; i <= many[f]; i++) {
        name = order[f, i]
        if ((f, name) in left_out) continue
        text = called_plainly(constants(f, numbered(f, body[f, name])))
        if (name in done) { if (done[name] != text) fail(name " is not the same in two crates"); continue }
        done[name] = text
        printf "\n%s", text
        if (name in exports_as) printf "\n%s", exported(exports_as[name], text, by_pointer[name])
    }
    print ""
    for (f = 1; f <= file; f++) for (i = 1; i <= declared[f]; i++) {
        text = numbered(f, declares[f, i])
        if (!(text in said)) print text
        said[text] = 1
    }
    print ""
    for (i = 0; i < groups; i++) print "attributes #" i " = " groups_text[i]
    print ""
    ident_text = ident[1]
    sub(/^!\{/, "", ident_text); sub(/\}$/, "", ident_text)
    print "!llvm.ident = !{!" note_number(1, ident_text) "}"
    for (i = 0; i < notes; i++) print "!" i " = " notes_text[i]
}
