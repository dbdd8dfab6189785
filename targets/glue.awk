# glue.awk HEADER.. MODULE: the functions that the headers declare, in C, over the functions us_core_NAME of the module. The module has 64 bits for every
# size_t, a slice's length too, and gives a struct through a pointer that comes first. A slice may be of
# numbers or of structs of numbers, of those that have no size_t: they are the same in the module and in C, and the glue asserts where each
# field stands. Every exported function of the module has to have its prototype in a header and fit it, every prototype of us_NAME its function.
FILENAME != last { last = FILENAME; if (FILENAME ~ /\.h$/) { headers[++header_count] = FILENAME } }
FILENAME ~ /\.h$/ { if ($0 !~ /^ *#/) text = text " " $0; next }
/^define / && match($0, /@us_core_[a-z_]+\(/) { module($0) ; next }

function fail(why) { if (!failed) print "glue: " why > "/dev/stderr"; failed = 1; exit 1 }
function trim(s) { gsub(/[ \t]+/, " ", s); sub(/^ /, "", s); sub(/ $/, "", s); return s }

# What the function of the module gives and takes, as `void(ptr,i32)`.
function module(line,   name, gives, arguments, many, parts, i, one) {
    name = substr(line, RSTART + 1, RLENGTH - 2)
    gives = substr(line, 1, RSTART - 2)
    sub(/^.* /, "", gives)
    arguments = substr(line, RSTART + RLENGTH)
    sub(/\) #.*$/, "", arguments)
    many = split(arguments, parts, ", ")
    for (i = 1; i <= many; i++) { one = parts[i]; sub(/ .*$/, "", one); gives = gives (i == 1 ? "(" : ",") one }
    shape["us_" substr(name, 9)] = gives ")"
}

function ir(type) {
    if (type == "size_t" || type == "uint64_t") return "i64"
    if (type == "uint32_t") return "i32"
    if (type == "uint16_t") return "i16"
    if (type == "uint8_t") return "i8"
    if (type == "bool") return "i1"
    return ""
}
function wide(type) { return type == "size_t" ? "uint64_t" : type }
function bytes(type) { return type == "uint64_t" ? 8 : type == "uint32_t" ? 4 : type == "uint16_t" ? 2 : 1 }

# The struct is lent as an element of a slice: why it cannot be, or nothing.
function lend(name,   k) {
    for (k = 1; k <= fields_of[name]; k++) if (wide(field_type[name, k]) != field_type[name, k]) return "a slice of " name ", which has a size_t"
    lent[name] = 1
    return ""
}
# Where each field of a lent struct has to stand: each at the next multiple of its own size, the whole a multiple of the largest.
function assertions(name,   k, at, size, most, text) {
    at = 0; most = 1
    for (k = 1; k <= fields_of[name]; k++) {
        size = bytes(field_type[name, k])
        if (size > most) most = size
        at = int((at + size - 1) / size) * size
        text = text (k == 1 ? "" : " && ") "offsetof(" name ", " field[name, k] ") == " at
        at += size
    }
    at = int((at + most - 1) / most) * most
    return "\n_Static_assert(" text " && sizeof(" name ") == " at ", \"" name "\");"
}

# typedef struct { .. } NAME
function structure(s,   name, fields, many, parts, i, word, n) {
    name = s
    sub(/^.*\} */, "", name)
    fields = s
    sub(/^[^{]*\{/, "", fields); sub(/\}.*$/, "", fields)
    many = split(fields, parts, ";")
    n = 0
    for (i = 1; i <= many; i++) {
        if (trim(parts[i]) == "") continue
        if (split(trim(parts[i]), word, " ") != 2 || ir(word[1]) == "" || word[2] !~ /^[a-z_]+$/) fail("a field of " name " that is not known: " trim(parts[i]))
        field_type[name, ++n] = word[1]; field[name, n] = word[2]
    }
    fields_of[name] = n
    structs[++struct_count] = name
}

# The prototype RETURNS us_NAME(..), and the definition that follows from it.
function prototype(s,   name, returns, many, parts, i, type, word, length_word, taken, given, expects, plain, why) {
    match(s, /us_[a-z_]+ *\(/)
    name = trim(substr(s, RSTART, RLENGTH - 1))
    returns = trim(substr(s, 1, RSTART - 1))
    if (!(name in shape)) fail(name " is declared, and no crate exports it")
    many = split(substr(s, RSTART + RLENGTH), parts, ",")
    sub(/\) *$/, "", parts[many])
    expects = ""
    if (returns in fields_of) { expects = "ptr"; given = "&core"; taken = "struct core_" returns " *"; returned[returns] = 1 }
    for (i = 1; i <= many; i++) {
        type = trim(parts[i])
        match(type, /[a-z_]+$/)
        word = substr(type, RSTART); type = trim(substr(type, 1, RSTART - 1))
        if (type ~ /\*$/) {
            plain = type
            sub(/^const /, "", plain); sub(/ *\*$/, "", plain)
            if (i == many || trim(parts[i + 1]) !~ /^size_t /) fail(name ": no length follows " word)
            if (ir(plain) == "") { if (!(plain in fields_of)) fail(name ": a pointer to " plain); else if ((why = lend(plain)) != "") fail(name ": " why) }
            length_word = substr(trim(parts[i + 1]), 8)
            expects = expects (expects == "" ? "" : ",") "ptr,i64"; given = given (given == "" ? "" : ", ") word ", " length_word; taken = taken (taken == "" ? "" : ", ") "const void *, uint64_t"
            i++
        } else {
            if (ir(type) == "") fail(name ": an argument of type " type)
            expects = expects (expects == "" ? "" : ",") ir(type); given = given (given == "" ? "" : ", ") word; taken = taken (taken == "" ? "" : ", ") wide(type)
        }
    }
    if (!(returns in fields_of) && returns != "void" && ir(returns) == "") fail(name " gives " returns)
    expects = (returns in fields_of || returns == "void" ? "void" : ir(returns)) "(" expects ")"
    if (expects != shape[name]) fail(name ": the header's prototype is " expects ", the module's function " shape[name])
    made[name] = 1
    core = name
    sub(/^us_/, "us_core_", core)
    code = code "\n" (returns in fields_of ? "void" : wide(returns)) " " core "(" taken ");\n" trim(s) "\n{\n"
    if (returns in fields_of) code = code "    struct core_" returns " core;\n    " core "(" given ");\n    return narrow_" returns "(&core);\n}\n"
    else code = code "    " (returns == "void" ? "" : "return " (returns == "size_t" ? "(size_t)" : "")) core "(" given ");\n}\n"
    count++
}

END {
    if (failed) exit 1
    while ((at = index(text, "/*")) > 0) {
        rest = substr(text, at + 2)
        text = substr(text, 1, at - 1) " " substr(rest, index(rest, "*/") + 2)
    }
    gsub(/extern "C" *\{/, "", text)
    # A struct's own semicolons stay inside of its braces.
    while (match(text, /[^;{}]*\{[^{}]*\}[^;]*;/)) {
        one = trim(substr(text, RSTART, RLENGTH - 1))
        if (one ~ /^typedef struct/) structure(one)
        else if (one !~ /^enum \{/) fail("a declaration that is not known: " one)
        text = substr(text, 1, RSTART - 1) substr(text, RSTART + RLENGTH)
    }
    gsub(/}/, "", text)
    many = split(text, one_by_one, ";")
    for (i = 1; i <= many; i++) {
        one = trim(one_by_one[i])
        if (one == "") continue
        if (one ~ /^[a-z_0-9]+ us_[a-z_]+ ?\(.*\)$/) prototype(one); else fail("a declaration that is not known: " one)
    }
    for (name in shape) if (!(name in made)) fail("a crate exports " name ", and no header declares it")
    print "/* Made by targets/glue.awk. */"
    print "#include <stdbool.h>"
    for (i = 1; i <= header_count; i++) { name = headers[i]; sub(/^.*\//, "", name); print "#include \"" name "\"" }
    print "\nstruct placed {\n    uint32_t first;\n    uint64_t second;\n};\n_Static_assert(offsetof(struct placed, second) == 8 && sizeof(struct placed) == 16, \"a number of 64 bits stands at a multiple of 8\");"
    for (i = 1; i <= struct_count; i++) {
        name = structs[i]
        if (name in lent) print assertions(name)
        if (!(name in returned)) continue
        print "\nstruct core_" name " {"
        for (k = 1; k <= fields_of[name]; k++) print "    " wide(field_type[name, k]) " " field[name, k] ";"
        print "};\nstatic " name " narrow_" name "(const struct core_" name " *core)\n{\n    return (" name "){"
        for (k = 1; k <= fields_of[name]; k++) print "        ." field[name, k] " = (" field_type[name, k] ")core->" field[name, k] (k < fields_of[name] ? "," : "")
        print "    };\n}"
    }
    printf "%s", code
}
