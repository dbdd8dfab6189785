# memory.awk: reads a module of the kit's compiler as text, and says whether the module means the same where a pointer has 4 bytes as
# where it has 8. Every instruction has to be one of those below, in the shape given there: anything else is refused. An object is what a
# pointer can point to; objects that one pointer may reach are one class, in which each has its place: a pointer may reach a part of a struct. The
# classes have to fall into three kinds:
#   numbers   no pointer is ever stored in or loaded from it; all its bytes mean the same on every machine
#   pointer   an `alloca ptr`: one pointer, stored and loaded whole, nothing else, never moved or filled
#   struct    pointers at known places, each stored and loaded whole, 8 bytes for each, as on the one machine so on the other; beside them numbers,
#             at known places too, or, by an index, behind the last pointer. A part is moved or filled, with zeros, only where its length is known
#             and it has all 8 bytes of a pointer or none, and an `alloca ptr` never is. A slice is one: a pointer and a number
# So bytes 4 to 7 of a pointer are never looked at. Where bytes are moved, what a pointer among them points to is of one class. How memory that the
# caller lends is aligned goes by what a pointer reaches: a move reaches both sides byte by byte. A struct as a value is loaded whole only where
# both machines have its fields at the same places, or made field by field (targets/merge.awk); nothing else is known of it. Calls through a pointer are refused too, and recursion. Memory that the
# caller lends is what the pointers of an exported function reach, but for one named %out. It prints what it found, and each fault as
# `refused: ..` with status 1. A read of bytes that were never written is not found.
BEGIN {
    number = "^i(1|8|16|32|64)$"
    value = "(%[A-Za-z0-9_.]+|-?[0-9]+|true|false)"
    pointer = "%[A-Za-z0-9_.]+"
    place = "(%[A-Za-z0-9_.]+|@constant\\.[0-9]+)"
    struct = "\\{ (ptr|i8|i16|i32|i64)(, (ptr|i8|i16|i32|i64))+ \\}"
    split("nounwind noundef zeroext signext noreturn cold alwaysinline optsize minsize nocallback nofree willreturn", some, " ")
    for (i in some) plain[some[i]] = 1
    split("eq ne ult ule ugt uge slt sle sgt sge", some, " ")
    for (i in some) comparison[some[i]] = 1
    split("add sub mul udiv urem and or xor shl lshr", some, " ")
    for (i in some) arithmetic[some[i]] = 1
}

# ---- Words: names in quotation marks become plain ones, the two marks on loads that say nothing of memory go.
{
    line = $0
    while (match(line, /@"[^"]*"/)) {
        quoted = substr(line, RSTART, RLENGTH)
        if (!(quoted in short)) { short[quoted] = "@quoted." ++quotes; long[short[quoted]] = substr(quoted, 2) }
        line = substr(line, 1, RSTART - 1) short[quoted] substr(line, RSTART + RLENGTH)
    }
}

# ---- Outside of functions.
/^$/ || /^;/ || /^source_filename = "[^"]*"$/ || /^target (triple|datalayout) = "[^"]*"$/ { if (fn != "" && /^target/) refuse("a line that is not known"); next }
/^!llvm.ident = / || /^![0-9]+ = !\{(!"[^"]*")?\}$/ || /^![0-9]+ = !\{i8 [0-9]+, i8 [0-9]+\}$/ { next }
/^attributes #[0-9]+ = \{ .* \}$/ { attributes(); next }
/^@constant\.[0-9]+ = private unnamed_addr constant \[[0-9]+ x i8\] (c"[^"]*"|zeroinitializer), align 1$/ { constant[$1]; next }
/^declare void @llvm.memmove.p0.p0.i64\(/ || /^declare void @llvm.memset.p0.i64\(/ || /^declare void @llvm.trap\(\)/ { next }
/^define / { define(); next }
/^}$/ { fn = ""; next }
fn == "" { refuse("a line that is not known"); next }
/^[A-Za-z0-9_.]+:( +; (preds = .*|No predecessors!))?$/ { next }

# ---- Instructions.
/^  / { sub(/^ +/, "", line); sub(/, !range ![0-9]+/, "", line); sub(/, !noundef ![0-9]+/, "", line); instruction(); next }
{ refuse("a line that is not known") }

function where() { return "line " NR (fn == "" ? "" : " in " shown(fn)) ": " }
function shown(f) { return f in long ? long[f] : substr(f, 2) }
function refuse(why,   text) {
    text = $0
    sub(/^ +/, "", text)
    faults++
    if (faults <= 20) print "refused: " where() why ": " substr(text, 1, 160)
}
function fault(at, why) { faults++; if (faults <= 20) print "refused: " at why }
function fits(shape) { return line ~ ("^" shape "$") }

function attributes(   words, many, i, text) {
    text = line
    sub(/^[^{]*\{ /, "", text); sub(/ \}$/, "", text)
    gsub(/memory\([a-z: ]*\)/, "", text)
    many = split(text, words, " ")
    for (i = 1; i <= many; i++) if (!(words[i] in plain)) refuse("an attribute that is not known, " words[i] ",")
}

function define(   text, arguments, many, i, word, n, parts, names, gives) {
    text = line
    match(text, /@[A-Za-z0-9_.$]+\(/)
    fn = substr(text, RSTART, RLENGTH - 1)
    if (fn in defined) refuse("defined twice")
    defined[fn] = 1
    functions[++many_functions] = fn
    names = substr(text, 1, RSTART - 1)
    sub(/^define /, "", names)
    exported[fn] = names !~ /^internal /
    sub(/^internal /, "", names)
    sub(/ $/, "", names)
    gives = names
    while (match(gives, /^[a-z]+ /) && substr(gives, 1, RLENGTH - 1) in plain) gives = substr(gives, RLENGTH + 1)
    if (gives ~ ("^" struct "$")) { if (exported[fn]) refuse("what an exported function gives back is a struct") }
    else if (gives == "ptr") { if (exported[fn]) refuse("what an exported function gives back is a pointer") }
    else if (gives != "void" && gives !~ number) refuse("what a function gives back is no number")
    given[fn] = gives
    arguments = substr(text, RSTART + RLENGTH)
    match(text, /@[A-Za-z0-9_.$]+\(/)
    arguments = substr(text, RSTART + RLENGTH)
    if (arguments !~ /\) #[0-9]+ \{$/) { refuse("a function of a shape that is not known"); return }
    sub(/\) #[0-9]+ \{$/, "", arguments)
    many = split(arguments, parts, ", ")
    takes[fn] = many
    for (i = 1; i <= many; i++) {
        n = split(parts[i], word, " ")
        if (n < 2 || n > 4 || word[n] !~ ("^" pointer "$") || (n > 2 && !(word[2] in plain)) || (n > 3 && !(word[3] in plain)) || (word[1] != "ptr" && word[1] !~ number)) { refuse("an argument of a shape that is not known"); continue }
        kind[fn, i] = word[1]
        if (word[n] == "%out") out[fn] = i
        if (word[1] == "ptr") point(word[n], argument(fn, i), 0)
    }
}

# Sets field_count, field_type and field_at of a struct's type, and says whether the fields stand at the same places on both machines: one that is
# loaded as a whole has to be such.
function fields_of(type,   i, at, short, size, less, same) {
    sub(/^\{ /, "", type); sub(/ \}$/, "", type)
    field_count = split(type, field_type, ", ")
    at = short = 0
    same = 1
    for (i = 1; i <= field_count; i++) {
        size = field_type[i] == "ptr" ? 8 : bytes_of(field_type[i])
        less = field_type[i] == "ptr" ? 4 : size
        at = int((at + size - 1) / size) * size; short = int((short + less - 1) / less) * less
        if (at != short) same = 0
        field_at[i] = at
        at += size; short += less
    }
    return same
}

function argument(f, i) { return f " " i }
# The value %v of this function points into the object, so many bytes from where the object begins, or from there on, "*32".
function point(v, object, bytes) {
    if ((fn, v) in into) refuse("a value that is set twice")
    into[fn, v] = object
    past[fn, v] = bytes
}
# Whether %v is a pointer that was met before, or a constant of the module.
function known(v) {
    if (v in constant && !((fn, v) in into)) { into[fn, v] = v; past[fn, v] = 0 }
    if ((fn, v) in into) return 1
    refuse("a pointer that was not met before, " v ",")
    return 0
}
# The same of a struct as a value.
function known_struct(v, type) {
    if ((fn, v) in struct_of && struct_of[fn, v] == type) return 1
    refuse("a struct that was not met before, " v ",")
    return 0
}

function instruction(   word, n, v, what) {
    n = split(line, word, " ")
    v = word[1]
    if (v ~ /^%/ && word[2] == "=") { what = word[3] } else { what = v; v = "" }
    if (fn in addresses && !keeps_apart(what, word, n)) { refuse("an address used as a number"); return }
    if (what == "ptrtoint") { take_address(v, word); return }
    if (what == "call") { call(v); return }
    if (what == "alloca") { allocate(v); return }
    if (what == "load") { load(v, word); return }
    if (what == "store") { store(word); return }
    if (what == "getelementptr") { step(v, word, n); return }
    if (what == "extractvalue") { extract(v, word, n); return }
    if (what == "insertvalue") { insert(v, word, n); return }
    if (what in arithmetic) { if (fits(pointer " = " what "( nuw)?( nsw)?( disjoint)?( exact)? i[0-9]+ " value ", " value)) return }
    else if (what == "icmp") { if (fits(pointer " = icmp [a-z]+ i[0-9]+ " value ", " value) && word[4] in comparison) return }
    else if (what == "zext" || what == "sext" || what == "trunc") { if (fits(pointer " = " what "( nuw)?( nneg)? i[0-9]+ " value " to i[0-9]+")) return }
    else if (what == "br") { if (fits("br label " pointer) || fits("br i1 " value ", label " pointer ", label " pointer)) return }
    else if (what == "switch") { if (fits("switch i[0-9]+ " value ", label " pointer " \\[")) return }
    else if (what == "ret") { if (fits("ret void") || fits("ret i[0-9]+ " value)) return; if (fits("ret ptr " place) || fits("ret " struct " " pointer)) { give_back(word, n); return } }
    else if (line == "unreachable" || line == "]" || fits("i[0-9]+ " value ", label " pointer)) return
    refuse("an instruction that is not known")
}

# Where a pointer points, as a number: it stands only in the difference of two, and that only as what is less than a length, which says whether the
# one points into what begins at the other. So it does on both machines, since an address of 4 bytes is a number of 8 by zeros before it.
function take_address(v, word) {
    if (!fits(pointer " = ptrtoint ptr " place " to i64")) { refuse("an instruction that is not known"); return }
    if (known(word[5])) { addresses[fn]; address[fn, v] = where() "an instruction that is not known: " line }
}
function keeps_apart(what, word, n,   i, w, some) {
    for (i = 1; i <= n; i++) {
        w = word[i]
        gsub(/[,()]/, "", w)
        if ((fn, w) in address || (fn, w) in difference) some++
    }
    if (!some) return 1
    w = word[n - 1]; sub(/,$/, "", w)
    if (what == "sub" && some == 2 && (fn, w) in address && (fn, word[n]) in address && fits(pointer " = sub i64 " pointer ", " pointer)) { difference[fn, word[1]]; address[fn, w] = address[fn, word[n]] = ""; return 1 }
    return what == "icmp" && some == 1 && (fn, w) in difference && fits(pointer " = icmp ult i64 " pointer ", " value)
}

function allocate(v,   size) {
    if (!fits(pointer " = alloca (ptr|i[0-9]+|\\[[0-9]+ x i8\\]), align [0-9]+")) { refuse("an instruction that is not known"); return }
    size = line
    sub(/^.* = alloca /, "", size); sub(/, align.*$/, "", size)
    point(v, fn " " v, 0)
    allocas++
    holder[allocas] = fn " " v
    if (size == "ptr") room[allocas] = "ptr"
    else if (size ~ /^i/) room[allocas] = bytes_of(size)
    else { sub(/^\[/, "", size); sub(/ .*$/, "", size); room[allocas] = size + 0 }
    room_of[fn " " v] = room[allocas]
    placed[allocas] = where()
}
function bytes_of(type,   bits) { bits = substr(type, 2) + 0; return bits < 8 ? 1 : bits / 8 }

# An access: what it is, through which pointer, how many bytes (0: a pointer), its alignment.
function access(v, size, align) { if (known(v)) reach(v, 0, size, align) }
function load(v, word,   at, type, align, i) {
    if (fits(pointer " = load " struct ", ptr " pointer ", align [0-9]+")) {
        type = line
        sub(/^.* = load /, "", type); sub(/ \}, ptr .*$/, " }", type)
        at = line
        sub(/^.* \}, ptr /, "", at); align = at
        sub(/, align.*$/, "", at); sub(/^.*, align /, "", align)
        if (!fields_of(type)) { refuse("a struct of which a field stands elsewhere where pointers are shorter"); return }
        if (!known(at)) return
        struct_of[fn, v] = type
        for (i = 1; i <= field_count; i++) {
            reach(at, field_at[i], field_type[i] == "ptr" ? 0 : bytes_of(field_type[i]), align)
            if (field_type[i] == "ptr") { target(into[fn, at], offset(at, field_at[i]), fn " " v " " i); target(fn " " v, field_at[i], fn " " v " " i) }
        }
        return
    }
    if (!fits(pointer " = load (ptr|i(1|8|16|32|64)), ptr " place ", align [0-9]+")) { refuse("an instruction that is not known"); return }
    at = word[6]; sub(/,$/, "", at)
    if (word[4] == "ptr,") {
        access(at, 0, word[8])
        point(v, fn " " v, 0)
        if (known(at)) target(into[fn, at], past[fn, at], into[fn, v])
    } else { access(at, bytes_of(substr(word[4], 1, length(word[4]) - 1)), word[8]) }
}
# A place is a number, or not known but from a number on: "*32". Those of a class that are not known at all are "*".
function is_unknown(at) { return at ~ /^\*/ }
function least(at) { return is_unknown(at) ? substr(at, 2) + 0 : at }
function put(at, more) { return is_unknown(at) ? "*" (least(at) + more) : at + more }
function offset(v, more) { return put(past[fn, v], more) }
function reach(v, more, size, align) {
    accesses++
    object_of[accesses] = into[fn, v]; offset_of[accesses] = offset(v, more); size_of[accesses] = size; align_of[accesses] = align; made_at[accesses] = where()
}
function extract(v, word, n,   type, from, i) {
    if (!fits(pointer " = extractvalue " struct " " pointer ", [0-9]+")) { refuse("an instruction that is not known"); return }
    type = line
    sub(/^.* = extractvalue /, "", type); sub(/ \} .*$/, " }", type)
    from = word[n - 1]; sub(/,$/, "", from)
    if (!known_struct(from, type)) return
    fields_of(type)
    i = word[n] + 1
    if (i > field_count) { refuse("a struct without that field"); return }
    if (field_type[i] == "ptr") { point(v, fn " " v, 0); target(fn " " from, field_at[i], fn " " v) }
}
# A struct as a value is made of its fields, one after the other.
function insert(v, word, n,   type, from, i) {
    if (!fits(pointer " = insertvalue " struct " (undef|" pointer "), (ptr " place "|i(8|16|32|64) " value "), [0-9]+")) { refuse("an instruction that is not known"); return }
    type = line
    sub(/^.* = insertvalue /, "", type); sub(/ \} .*$/, " }", type)
    from = word[n - 3]; sub(/,$/, "", from)
    if (from != "undef" && !known_struct(from, type)) return
    fields_of(type)
    i = word[n] + 1
    if (i > field_count || field_type[i] != word[n - 2]) { refuse("a struct without that field"); return }
    struct_of[fn, v] = type
    if (from != "undef") join(fn " " v, fn " " from, 0)
    from = word[n - 1]; sub(/,$/, "", from)
    if (field_type[i] == "ptr" && known(from)) target(fn " " v, field_at[i], handed(from))
}
function give_back(word, n,   type) {
    if (word[2] == "ptr") {
        if (given[fn] != "ptr") refuse("what is given back is not of the function's type")
        else if (known(word[3])) join(handed(word[3]), fn " gives", 0)
        return
    }
    type = line
    sub(/^ret /, "", type); sub(/ %[^ ]*$/, "", type)
    if (given[fn] != type) refuse("what is given back is not of the function's type")
    else if (known_struct(word[n], type)) join(fn " " word[n], fn " gives", 0)
}
function store(word,   at, v) {
    if (!fits("store (ptr " place "|i(1|8|16|32|64) " value "), ptr " pointer ", align [0-9]+")) { refuse("an instruction that is not known"); return }
    v = word[3]; sub(/,$/, "", v)
    at = word[5]; sub(/,$/, "", at)
    if (word[2] == "ptr") {
        access(at, 0, word[7])
        if (known(at) && known(v)) target(into[fn, at], past[fn, at], handed(v))
    } else access(at, bytes_of(word[2]), word[7])
}
# The pointer is put away or passed on: whoever takes it does not know how far into its object it points. Gives what begins there, as an object.
# Of a place that is not known it is the first that it may be: the check at the end asks that from there on there are only numbers.
function handed(v,   o) {
    o = into[fn, v]
    if (past[fn, v] == "0") return o
    inner++
    inner_object[inner] = o; inner_at[inner] = where()
    join(o, o " + " past[fn, v], least(past[fn, v]))
    return o " + " past[fn, v]
}
function step(v, word, n,   from, by, each) {
    if (!fits(pointer " = getelementptr( inbounds)?( nuw)? i(8|16|32|64), ptr " place ", i64 " value)) { refuse("an instruction that is not known"); return }
    from = word[n - 2]; sub(/,$/, "", from)
    each = word[n - 4]; sub(/,$/, "", each)
    by = word[n]
    if (!known(from)) return
    if (by ~ /^[0-9]+$/) { point(v, into[fn, from], offset(from, by * bytes_of(each))); return }
    # An index goes upward, in the proved code's array: an array begins where its pointer points.
    point(v, into[fn, from], "*" (by ~ /^-/ ? -1000000 : least(past[fn, from])))
    wide++
    wide_object[wide] = into[fn, from]; wide_from[wide] = past[fn, v]; wide_at[wide] = where()
}

function call(v,   text, f, result, arguments, many, parts, i, word, n) {
    text = line
    sub(/^%[A-Za-z0-9_.]+ = /, "", text)
    if (!match(text, /^call [a-z0-9 {},]+ @[A-Za-z0-9_.$]+\(/)) { refuse("a call of a shape that is not known"); return }
    f = substr(text, 1, RLENGTH - 1)
    arguments = substr(text, RLENGTH + 1)
    if (arguments !~ /\)$/) { refuse("a call of a shape that is not known"); return }
    sub(/\)$/, "", arguments)
    many = split(arguments, parts, ", ")
    result = f
    sub(/^.*@/, "@", f)
    sub(/^call /, "", result); sub(/ @.*$/, "", result); sub(/^(noundef |zeroext |signext )+/, "", result)
    for (i = 1; i <= many; i++) {
        n = split(parts[i], word, " ")
        if (n == 3 && word[2] in plain) word[2] = word[3]
        else if (n != 2) { refuse("an argument of a shape that is not known"); return }
        if (word[2] !~ ("^" (word[1] == "ptr" ? place : value) "$") || (word[1] != "ptr" && word[1] !~ number)) { refuse("an argument of a shape that is not known"); return }
        type[i] = word[1]; with[i] = word[2]
        if (word[1] == "ptr" && !known(word[2])) return
    }
    if (f == "@llvm.trap") { if (many == 0 && v == "") return; refuse("a call of a shape that is not known"); return }
    if (f == "@llvm.memmove.p0.p0.i64") { moved(many, v); return }
    if (f == "@llvm.memset.p0.i64") { filled(many, v); return }
    calls++
    caller[calls] = fn; callee[calls] = f; called_at[calls] = where(); called_with[calls] = many; called_for[calls] = result
    edges[fn] = edges[fn] " " f
    for (i = 1; i <= many; i++) {
        passed[calls, i] = type[i]
        if (type[i] == "ptr") passed_object[calls, i] = handed(with[i])
    }
    if (result == "ptr") { point(v, fn " " v, 0); join(fn " " v, f " gives", 0) }
    else if (result ~ /^\{/) { if (result !~ ("^" struct "$")) refuse("a call of a shape that is not known"); struct_of[fn, v] = result; join(fn " " v, f " gives", 0) }
}
function filled(many, v) {
    if (many != 4 || v != "" || with[4] != "false" || type[1] != "ptr") { refuse("a fill of a shape that is not known"); return }
    fills++
    fill_of[fills] = into[fn, with[1]]; fill_from[fills] = past[fn, with[1]]; fill_size[fills] = with[3]; fill_by[fills] = with[2]; fill_at[fills] = where()
    accesses++
    object_of[accesses] = into[fn, with[1]]; offset_of[accesses] = past[fn, with[1]]; size_of[accesses] = -1; align_of[accesses] = 1; made_at[accesses] = where()
}
function moved(many, v) {
    if (many != 4 || v != "" || with[4] != "false" || type[1] != "ptr" || type[2] != "ptr") { refuse("a move of a shape that is not known"); return }
    moves++
    move_to[moves] = into[fn, with[1]]; move_from[moves] = into[fn, with[2]]; move_size[moves] = with[3]; move_at[moves] = where()
    move_in[moves] = past[fn, with[1]]; move_out[moves] = past[fn, with[2]]
}

# ---- Classes of objects.
# The class of an object; `by` is then the object's place in its class.
function class(o,   root, all) {
    all = 0
    for (root = o; root in above; root = above[root]) all += delta[root]
    if (root != o) { above[o] = root; delta[o] = all }
    by = all
    return root
}
# What begins in the object a, at `at`, is the object b. The places of a class that hold a pointer are `places`, as words; what the one at a place
# points to is `cell`. A class is loose where it is not known, or not one place, where an object stands in another.
function join(a, b, at,   todo, left, n, parts, i, p, of, to, put_at, shift) {
    todo[1] = a; of[1] = b; put_at[1] = at; left = 1
    while (left > 0) {
        a = class(todo[left]); shift = by
        b = class(of[left]); shift -= by
        at = put_at[left]; left--
        shift += at
        if (a == b) { if (shift != 0) loose[a]; continue }
        above[b] = a; delta[b] = shift
        if (b in loose) loose[a]
        n = split(places[b], parts, " ")
        for (i = 1; i <= n; i++) {
            p = parts[i] == "*" ? "*" : parts[i] + shift; to = cell[b, parts[i]]
            if ((a, p) in cell) { left++; todo[left] = cell[a, p]; of[left] = to; put_at[left] = 0 }
            else { cell[a, p] = to; places[a] = places[a] " " p }
        }
        delete places[b]
    }
}
# A pointer to the other object stands at a place of the object. Whether that was news.
function target(object, at, other,   c, has, there) {
    c = class(object); at = is_unknown(at) ? "*" : at + by
    if ((c, at) in cell) {
        has = class(cell[c, at]); there = by
        # Two places of one class: that is said once, and is no news then.
        if (has == class(other) && (there == by || has in loose)) return 0
        join(cell[c, at], other, 0)
        return 1
    }
    cell[c, at] = other; places[c] = places[c] " " at
    return 1
}
# What was moved points to what it pointed to before. Whether that was news.
function carried(k, to, at, from, out_of,   n, parts, i, news, c, begin, p) {
    c = class(from); begin = by
    n = split(places[c], parts, " ")
    news = 0
    for (i = 1; i <= n; i++) {
        if (parts[i] == "*" || is_unknown(at) || is_unknown(out_of) || move_size[k] !~ /^[0-9]+$/) { if (!(k in unclear)) { unclear[k]; fault(move_at[k], "a move over pointers of which a place, or the length, is not known") } return 0 }
        p = parts[i] - begin
        if (p + 8 <= out_of || p >= out_of + move_size[k]) continue
        if (p < out_of || p + 8 > out_of + move_size[k]) { if (!(k in unclear)) { unclear[k]; fault(move_at[k], "a move of " move_size[k] " bytes that cuts a pointer") } continue }
        if (!((c, parts[i]) in cell)) continue
        news += target(to, p - out_of + at, cell[c, parts[i]])
        if (class(from) != c || by != begin) return news + 1
    }
    return news
}

# What is moved at a place of the object has no pointer in it, or it has whole ones, and is no `alloca ptr`, and lies in the object.
function harmless(object, at, k,   c, n, parts, i, p, has) {
    c = class(object)
    if (places[c] == "") return 1
    if (is_unknown(at) || move_size[k] !~ /^[0-9]+$/) return 0
    if (object in room_of && (room_of[object] == "ptr" || at + move_size[k] > room_of[object])) return 0
    n = split(places[c], parts, " ")
    for (i = 1; i <= n; i++) {
        if (parts[i] == "*") return 0
        p = parts[i] - by
        if (p + 8 <= at || p >= at + move_size[k]) continue
        if (p < at || p + 8 > at + move_size[k] || move_size[k] < 16 && (c, parts[i]) in alone) return 0
        has = 1
    }
    return !has || move_size[k] % 8 == 0
}
# From that place of the object on there are only numbers.
function only_numbers(object, at,   c, n, parts, i) {
    c = class(object); at = least(at) + by
    n = split(places[c], parts, " ")
    for (i = 1; i <= n; i++) if (parts[i] == "*" || parts[i] + 8 > at) return 0
    return 1
}
# Something of the class is reached up to there.
function up_to(c, end) { if (end > top[c]) top[c] = end }

function calls_itself(f,   list, many, i) {
    if (mark[f] == 2) return 0
    if (mark[f] == 1) { fault("", "recursion through " shown(f)); return 1 }
    mark[f] = 1
    many = split(edges[f], list, " ")
    for (i = 1; i <= many; i++) if (calls_itself(list[i])) return 1
    mark[f] = 2
    return 0
}

END {
    if (fn != "") fault("", "the module ends inside of a function")
    if (many_functions == 0) fault("", "there is no function")
    for (i = 1; i <= calls; i++) {
        f = callee[i]
        if (!(f in defined)) { fault(called_at[i], "a call of " shown(f) ", which is not here"); continue }
        if (takes[f] != called_with[i] || given[f] != called_for[i]) fault(called_at[i], "a call of " shown(f) " that does not fit it")
        for (k = 1; k <= called_with[i]; k++) {
            if (passed[i, k] != kind[f, k]) fault(called_at[i], "argument " k " of " shown(f) " is not of its type")
            if (passed[i, k] == "ptr") join(passed_object[i, k], argument(f, k), 0)
        }
    }
    # An address of which no difference is taken.
    for (i in address) if (address[i] != "") fault("", address[i])
    do {
        news = 0
        for (i = 1; i <= moves; i++) news += carried(i, move_to[i], move_in[i], move_from[i], move_out[i]) + carried(i, move_from[i], move_out[i], move_to[i], move_in[i])
    } while (news)
    for (i = 1; i <= many_functions; i++) if (calls_itself(functions[i])) break

    # How far each class that has pointers is reached, and whether by known places alone.
    for (i = 1; i <= accesses; i++) {
        c = class(object_of[i])
        if (size_of[i] < 0) continue
        if (is_unknown(offset_of[i])) { if (!only_numbers(object_of[i], offset_of[i])) anyhow[c]; continue }
        up_to(c, offset_of[i] + by + (size_of[i] == 0 ? 8 : size_of[i]))
    }
    for (i = 1; i <= moves; i++) if (move_size[i] ~ /^[0-9]+$/) {
        c = class(move_to[i]); if (!is_unknown(move_in[i])) up_to(c, move_in[i] + by + move_size[i])
        c = class(move_from[i]); if (!is_unknown(move_out[i])) up_to(c, move_out[i] + by + move_size[i])
    }
    for (i = 1; i <= fills; i++) { c = class(fill_of[i]); if (fill_size[i] ~ /^[0-9]+$/ && !is_unknown(fill_from[i])) up_to(c, fill_from[i] + by + fill_size[i]) }
    # Each class that has pointers: the room of its objects.
    for (i = 1; i <= allocas; i++) {
        c = class(holder[i])
        if (places[c] == "") { if (room[i] == "ptr") fault(placed[i], "room for a pointer that holds none"); continue }
        if (room[i] == "ptr") { pointers++; alone[c, by + 0] }
        else {
            structs++
            if (by + room[i] > int((top[c] + 7) / 8) * 8) fault(placed[i], "a pointer in an object of " room[i] " bytes, which are not all reached")
        }
    }
    for (c in places) if (places[c] != "") {
        n = split(places[c], parts, " ")
        for (k = 1; k <= n; k++) if (class(cell[c, parts[k]]) == c) fault("", "an object that points to itself")
        if (c in loose) fault("", "a pointer into the middle of what holds a pointer, at a place that is not known: " c)
    }
    for (i = 1; i <= accesses; i++) {
        c = class(object_of[i])
        if (places[c] == "" || size_of[i] < 0) continue
        if (is_unknown(offset_of[i])) { if (size_of[i] == 0 || !only_numbers(object_of[i], offset_of[i])) fault(made_at[i], "a place that is not known, in what holds a pointer"); continue }
        at = offset_of[i] + by
        if (size_of[i] == 0) { stands[c, at]; if (at % 8 != 0) fault(made_at[i], "a pointer at " offset_of[i]); continue }
        n = split(places[c], parts, " ")
        for (k = 1; k <= n; k++) if (parts[k] != "*" && at < parts[k] + 8 && at + size_of[i] > parts[k] + 0) {
            fault(made_at[i], "a number of " size_of[i] " bytes at " offset_of[i] " where a pointer stands")
            crossed[c, parts[k]]
            break
        }
    }
    for (i = 1; i <= accesses; i++) if (size_of[i] == 0 && !is_unknown(offset_of[i])) { c = class(object_of[i]); if ((c, offset_of[i] + by) in crossed) fault(made_at[i], "a pointer at " offset_of[i] " where a number stands") }
    for (i = 1; i <= fills; i++) {
        c = class(fill_of[i])
        if (places[c] == "") continue
        n = split(places[c], parts, " ")
        whole = fill_by[i] == "0" && !is_unknown(fill_from[i]) && fill_size[i] ~ /^[0-9]+$/ && fill_size[i] >= 16
        from = least(fill_from[i]) + by
        for (k = 1; k <= n; k++) {
            if (!is_unknown(fill_from[i]) && fill_size[i] ~ /^[0-9]+$/ && (parts[k] + 8 <= from || parts[k] + 0 >= from + fill_size[i])) continue
            if (!whole || parts[k] + 0 < from || parts[k] + 8 > from + fill_size[i]) { fault(fill_at[i], "a fill over a pointer"); break }
        }
    }
    for (i = 1; i <= moves; i++) if (!harmless(move_to[i], move_in[i], i) || !harmless(move_from[i], move_out[i], i)) fault(move_at[i], "a move of " move_size[i] " bytes that cuts a slice, or moves a pointer alone")
    for (i = 1; i <= inner; i++) { c = class(inner_object[i]); if (places[c] != "" && (c in anyhow || c in loose)) fault(inner_at[i], "a pointer into the middle of what holds a pointer") }
    for (i = 1; i <= wide; i++) if (!only_numbers(wide_object[i], wide_from[i])) fault(wide_at[i], "an index over what holds a pointer")

    # Memory that the caller lends as a slice: how it is aligned where it is reached. Each slice that is not reached by single bytes is named.
    for (i = 1; i <= accesses; i++) { c = class(object_of[i]); if (align_of[i] + 0 > reached[c]) reached[c] = align_of[i] + 0 }
    for (i = 1; i <= many_functions; i++) if (exported[functions[i]]) for (k = slice = 1; k <= takes[functions[i]]; k++) {
        if (kind[functions[i], k] != "ptr" || k == out[functions[i]]) continue
        c = class(argument(functions[i], k))
        if (places[c] != "") fault("", "what " shown(functions[i]) " is lent holds a pointer")
        if (reached[c] > 1) lent = lent ", but slice " slice " of " shown(functions[i]) " at " reached[c]
        slice++
    }

    if (faults) { print faults " refused"; exit 1 }
    printf "%d functions, %d objects (%d of one pointer, %d of pointers among numbers), %d accesses, %d moves; lent memory is reached at multiples of 1%s\n", many_functions, allocas, pointers, structs, accesses, moves, lent
}
