# shellcheck shell=bash disable=SC2034
# Sourced from the repository's root after bench/common.sh: the kit's own clang, linker and archiver, the targets of targets/targets.txt,
# and C programs for them. Nothing is ever written into the kit's folder.

targets() { sed -n 's/^\([a-z][^ ]*\) .*/\1/p' targets/targets.txt; }

# Sets target, level, stack and flags from the line of a target, the level being another one where $2 gives it.
set_target() {
    local line
    line=$(NAME=$1 awk '/^[a-z]/ && $1 == ENVIRON["NAME"]' targets/targets.txt)
    [ -n "$line" ] || fail "there is no target '$1'; there are: $(targets | tr '\n' ' ')"
    read -r target level stack line <<<"$line"
    read -ra flags <<<"$line"
    case ${2:-$level} in -O0 | -O2 | -Os | -Oz) level=${2:-$level} ;; *) fail "'$2' is no level: -O0, -O2, -Os or -Oz" ;; esac
}

# calls_of HEADER..: the calls that they declare.
calls_of() { sed -n 's/^us_[a-z_]* \(us_[a-z_]*\)(.*/\1/p' "$@"; }

# The calls that are held to a bound of their stack, and bound CALL: the most bytes that the call may take on the target, as its header says;
# nothing for another call. Those of passes, those through a table and those of Intel HEX have one for all targets. No script calls the last two.
bounded() { calls_of include/undernshade.h include/undernshade_passes.h include/undernshade_table.h; }
bound() {
    case $1 in
    us_mount | us_commit | us_abort) echo "$stack" ;;
    us_give) echo 3071 ;;
    us_staff | us_register) echo 2303 ;;
    us_table_format | us_table_mount | us_table_commit) echo 4095 ;;
    us_table_*) echo 3071 ;;
    us_hex_read) echo 8703 ;;
    us_hex_write) echo 319 ;;
    *) ! bounded | grep -qxF "$1" || echo 2047 ;;
    esac
}

# Sets kit, and clang, lld and ar to programs of it. The kit's ld.lld and llvm-ar are links to clang: they are run, never written.
find_kit() {
    command -v rt >/dev/null || fail "Rattle's command rt is not on the PATH: install the kit first (README.md)"
    local doc
    doc=$(rt doc) || fail "rt doc failed"
    kit=$(cd "$(dirname "$doc")" && pwd -P) || fail "the kit's folder was not found"
    clang=$kit/toolchain/bin/clang lld=$kit/toolchain/bin/ld.lld ar=$kit/toolchain/bin/llvm-ar
    [ -x "$clang" ] && [ -x "$ar" ] && "$clang" --version >/dev/null 2>&1 || fail "the kit at $kit has no clang for this machine"
}

# shadow FOLDER: a folder like the kit's, of links, but for `rt` itself and the programs that the compiler runs: those are files of its own, and its
# clang keeps the module that it is given before the kit's clang compiles it, with larger functions taken into their callers than by itself: so a
# call takes less stack.
shadow() {
    local to=$1 one bin=$1/toolchain/bin
    mkdir -p "$to/bin" "$bin"
    for one in "$kit"/*; do [ -e "$to/${one##*/}" ] || ln -s "$one" "$to/"; done
    for one in "$kit"/bin/*; do case $one in */rt* | *.py) cp "$one" "$to/bin/" ;; *) ln -s "$one" "$to/bin/" ;; esac; done
    for one in "$kit"/toolchain/*; do [ "${one##*/}" = bin ] || ln -s "$one" "$to/toolchain/"; done
    for one in "$kit"/toolchain/bin/*; do printf '#!/bin/sh\nexec "%s" "$@"\n' "$one" >"$bin/${one##*/}"; done
    cat >"$bin/clang" <<END
#!/bin/sh
for word; do case \$word in *.bc) cp "\$word" "$to/module.bc" ;; esac; done
set -- "\$@" -mllvm -inline-threshold=400
printf '%s\n' "\$@" >"$to/words"
exec "$clang" "\$@"
END
    chmod +x "$bin"/*
    [ -z "$(find "$bin" -type l)" ] || fail "a link in the folder of programs: nothing is run"
}

# c_words: sets c to the words for C without a C library; gcc's own headers have what the compiler alone decides (stddef.h, stdint.h).
c_words() {
    need gcc "${CC:-gcc}"
    local headers
    headers=$("${CC:-gcc}" -print-file-name=include)
    [ -f "$headers/stdint.h" ] || headers=$(gcc -print-file-name=include)
    [ -f "$headers/stdint.h" ] || fail "gcc's stdint.h was not found"
    c=(-std=c11 -ffreestanding -nostdinc -isystem "$headers" -ffunction-sections -fdata-sections --no-default-config -Wall -Wextra -Werror)
}

# code_of OBJECT..: the bytes of code and constants, and of data that can change, that stand in the device: sections that are loaded, without
# tables for unwinding.
code_of() {
    readelf -SW "$@" | sed 's/^ *\[ *[0-9]*\] *//' | awk '
        $7 ~ /A/ && $1 !~ /^\.(ARM\.ex|eh_frame|note)/ { if ($7 ~ /W/) data += hex($5); else code += hex($5) }
        function hex(s,   i, v) { for (i = 1; i <= length(s); i++) v = v * 16 + index("0123456789abcdef", substr(s, i, 1)) - 1; return v }
        END { print code + 0, data + 0 }'
}

# linked_code CALL.. -- OBJECT..: the bytes of code and constants that the linker keeps of archives or objects for these calls.
linked_code() {
    local words=() linked
    while [ "$1" != -- ]; do words+=(-u "$1"); shift; done
    shift
    linked=$(mktemp) || exit 2
    "$lld" --gc-sections --unresolved-symbols=ignore-all -e 0 "${words[@]}" "$@" -o "$linked" || fail "the calls of $* were not linked"
    code_of "$linked" | cut -d ' ' -f 1
    rm -f "$linked"
}

# Sets run to the command that runs a program for the target, without an operating system or in an emulator of one process, start to
# what begins it, and script to its linker script where it has one; Debian's package of the emulator is installed where it is missing.
find_machine() {
    local board=(-display none -monitor none -serial null -chardev stdio,id=host -semihosting-config enable=on,target=native,chardev=host -kernel)
    machine=qemu-system-arm start=examples/cortex-m3/start.c script=examples/cortex-m3/link.ld
    case $target in
    cortex-m0 | cortex-m3) run=(qemu-system-arm -M mps2-an385 "${board[@]}") ;;
    cortex-m4) run=(qemu-system-arm -M mps2-an386 "${board[@]}") ;;
    cortex-m7) run=(qemu-system-arm -M mps2-an500 "${board[@]}") ;;
    cortex-m33) run=(qemu-system-arm -M mps2-an505 "${board[@]}") script=examples/cortex-m33/link.ld ;;
    rv32imac | rv32imc)
        machine=qemu-system-misc start=examples/rv32imac/start.c script=examples/rv32imac/link.ld
        run=(qemu-system-riscv32 -M virt -bios none "${board[@]}")
        # Later releases of Debian have RISC-V's emulator in a package of its own.
        ! apt-cache show qemu-system-riscv >/dev/null 2>&1 || machine=qemu-system-riscv
        ;;
    armv7) machine=qemu-user run=(qemu-arm) start=targets/user.c script= ;;
    aarch64) machine=qemu-user run=(qemu-aarch64) start=targets/user.c script= ;;
    *) fail "there is no way to run a program for $target here" ;;
    esac
    need_words=--no-install-recommends need "$machine" "${run[0]}"
}

# build_bare FILE WORD..: a program for the target without a C library, of sources and an archive, over examples/bare.
build_bare() {
    local file=$1 one objects=() words=() n=0 host=("${flags[@]}")
    shift
    # A Cortex-M3 runs what a Cortex-M0 runs, and the emulated board has one: all but the archive is compiled for that.
    [ "$target" != cortex-m0 ] || read -ra host <<<"$(sed -n 's/^cortex-m3 [^-]*-O[0-9sz] *[0-9]* *//p' targets/targets.txt)"
    # And start.c has control registers in it, which a processor without them does not run at all.
    [ "$target" != rv32imc ] || host=("${host[@]/#-march=rv32imc/-march=rv32imc_zicsr}")
    mkdir -p "$file.parts"
    for one; do case $one in -*) words+=("$one") ;; esac; done
    for one in examples/bare/library.c examples/bare/stdio.c "$start" "$@"; do
        case $one in
        *.c)
            n=$((n + 1))
            "$clang" "${host[@]}" "${c[@]}" -O2 -isystem examples/bare/include -Iinclude "${words[@]}" -c "$one" -o "$file.parts/$n.o" || fail "$one was not compiled for $target"
            objects+=("$file.parts/$n.o")
            ;;
        -*) ;;
        *) objects+=("$one") ;;
        esac
    done
    "$lld" ${script:+-T "$script"} -static --gc-sections "${objects[@]}" -o "$file" || fail "$file was not linked"
}

# painted_calls FILE: a header to be included before a program's text: it measures the stack of every call of include/*.h.
painted_calls() {
    { ls include/*.h | sed 's/.*/#include "..\/..\/&"/'
      echo '#include "../../driver/painted.h"'
      sed -n 's/^[a-z_0-9]* \(us_[a-z_]*\)(.*/#define \1(...) PAINTED("\1", \1(__VA_ARGS__))/p' include/*.h; } >"$1"
}

# build_for_target FILE ARCHIVE SOURCE..: a C program for the target over the archive, which says how deep the stack of its calls was (driver/
# painted.h). Where this machine can run it as it runs x86-64 or its own programs, compiler and runner are set; else on_board is, and it
# takes its input and gives its output by play_on_board.
build_for_target() {
    local file=$1 CPPFLAGS
    archive=$2
    shift 2
    runner=() on_board=
    mkdir -p "$(dirname "$file")" build/painted
    painted_calls build/painted/calls.h
    CPPFLAGS="-include build/painted/calls.h"
    if [ "$target" = "$(uname -m)" ]; then
        need gcc "${CC:-cc}"
        read -ra compiler <<<"${CC:-cc}"
        # Bound at its start, so that no call binds a function of the C library on the painted stack.
        build_program "$file" -Wl,-z,now "$@"
    elif [ "$target" = x86_64 ]; then
        set_up
        build_program "$file" "$@"
    else
        find_kit
        c_words
        find_machine
        on_board=1
        build_bare "$file" -DINPUT='"input"' -DOUTPUT='"output"' -includebuild/painted/calls.h "$@" "$archive"
    fi
}

# play_on_board FILE: runs a program of build_for_target on the target's emulator; standard input and output are files for it.
play_on_board() {
    local folder program=$PWD/$1 status
    folder=$(mktemp -d) || return 2
    cat >"$folder/input"
    : >"$folder/output"
    (cd "$folder" && "${run[@]}" "$program" </dev/null >&2)
    status=$?
    cat "$folder/output"
    rm -rf "$folder"
    return "$status"
}

# painted FILE: the deepest stack of each call, of the lines that driver/painted.h wrote.
painted() { awk '$1 == "stack" { if ($3 > most[$2]) most[$2] = $3 } END { for (call in most) print call "\t" most[call] }' "$1" | sort; }
