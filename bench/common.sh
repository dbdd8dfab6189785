# shellcheck shell=bash disable=SC2034
# Sourced from the repository's root by the commands of bench/, by tools/compare, compare-judge and listing-test, and by examples/test:
# builds the second program, an archive and the C programs over it. The kit's archives are x86-64 code: on Arm they are cross-compiled and
# run by an emulator (set_up), or the store's archive for this machine is taken (set_up_own).
# ARCHIVE=FILE takes that archive or object instead of the crate's, NATIVE=1 takes it for this machine's own code whatever the
# machine; CPPFLAGS goes to the C compiler.
strict=(-std=c11 -D_POSIX_C_SOURCE=200809L -O2 -Wall -Wextra -Wpedantic -Werror)
me=$(basename "$0")
runner=()

fail() { echo "$me: $*" >&2; exit 2; }

# Debian's package $1 where none of the commands $2.. is there; need_words are for apt-get.
need() {
    local package=$1 one log
    shift
    for one; do command -v "$one" >/dev/null && return; done
    echo "== installing $package"
    log=$(mktemp) || exit 2
    # One at a time: parts of the test may run side by side.
    (flock 9 && apt-get update -q && DEBIAN_FRONTEND=noninteractive apt-get install -y -q ${need_words:-} "$package") >"$log" 2>&1 9>"${TMPDIR:-/tmp}/undernshade-install" ||
        { tail -n 5 "$log" >&2; rm -f "$log"; fail "$1 is missing, and apt-get could not install $package"; }
    rm -f "$log"
}

is_x86() { [ "$(uname -m)" = x86_64 ]; }

# newer FILE WHAT..: the first of the rest that is newer than the file, what rt keeps in crates/NAME/out being left out.
newer() { find "${@:2}" -path 'crates/*/out' -prune -o -path 'crates/*' ! -path 'crates/*/*' -o -newer "$1" -print -quit; }

# Sets emulator to the command that runs x86-64 programs.
need_emulator() {
    need qemu-user qemu-x86_64 qemu-x86_64-static
    emulator=$(command -v qemu-x86_64 || command -v qemu-x86_64-static) || fail "there is no qemu-x86_64"
}

# Sets compiler, and runner to what stands before a compiled program's name.
set_up() {
    need make make
    need gcc "${CC:-cc}"
    if [ "${NATIVE:-}" = 1 ] && [ -z "${ARCHIVE:-}" ]; then fail "NATIVE=1 needs an ARCHIVE for this machine"; fi
    if is_x86 || [ "${NATIVE:-}" = 1 ]; then
        read -ra compiler <<<"${CC:-cc}"
    else
        need gcc-x86-64-linux-gnu x86_64-linux-gnu-gcc
        need_emulator
        compiler=(x86_64-linux-gnu-gcc -static)
        runner=("$emulator")
    fi
}

# The same for the store where it can run on this machine itself: on 64-bit Arm with the archive of `tools/archive aarch64`, and no
# emulator. With own_headers the one with the calls of these headers will do, so that nothing else need be proved. Where none can be made it
# says so, and x86-64 code is taken.
set_up_own() {
    local kind=
    own_archive=build/archive/aarch64/libundernshade.a
    if [ "$(uname -m)" != aarch64 ] || [ -n "${ARCHIVE:-}" ]; then own_archive=; set_up; return; fi
    if is_stale "$own_archive"; then
        for kind in ${own_headers:-}; do
            kind=${kind%.h} kind=${kind#undernshade_}
            own_archive=${own_archive%/*}-${kind/#undernshade/store}/libundernshade.a
        done
        # shellcheck disable=SC2086
        if is_stale "$own_archive" && ! tools/archive aarch64 ${own_headers:-}; then
            echo "$me: there is no archive for this machine (above): taking x86-64 code, and an emulator to run it" >&2
            own_archive=
            set_up
            return
        fi
    fi
    need make make
    need gcc "${CC:-cc}"
    read -ra compiler <<<"${CC:-cc}"
}
is_stale() { [ ! -f "$1" ] || [ -n "$(newer "$1" crates crates.txt include targets tools/archive)" ]; }

# Sets rattle_compiler and rattle_runner: what links and runs a program of Rattle, which is x86-64 code.
set_up_rattle() {
    rattle_compiler=("${compiler[@]}") rattle_runner=("${runner[@]}")
    [ -n "${own_archive:-}" ] || return
    need gcc-x86-64-linux-gnu x86_64-linux-gnu-gcc
    need_emulator
    rattle_compiler=(x86_64-linux-gnu-gcc -static) rattle_runner=("$emulator")
}

build_peer() {
    echo "== building the second program"
    make -s -C peer all || fail "the second program was not built"
}

# proved COMMAND WORDS..: a command that proves, which prints only where it fails.
proved() {
    local log
    command -v rt >/dev/null || fail "Rattle's command rt is not on the PATH: install the kit first (README.md)"
    log=$(mktemp) || exit 2
    "$@" >"$log" 2>&1 || { tail -n 15 "$log" >&2; rm -f "$log"; fail "$* failed"; }
    rm -f "$log"
}

# build_archive CRATE: sets archive.
build_archive() {
    local crate=$1
    if [ "$crate" = c_store ] && [ -n "${own_archive:-}" ]; then
        archive=$own_archive
        echo "== taking the archive $archive, this machine's own code"
        return
    fi
    archive=${ARCHIVE:-}
    if [ -n "$archive" ]; then
        [ -f "$archive" ] || fail "there is no archive $archive"
        echo "== taking the archive $archive"
        return
    fi
    kit_archive "$crate"
    archive=$kits
}

# kit_archive CRATE: sets kits to the kit's archive of the crate.
kit_archive() {
    local crate=$1
    kits=target/staticlib/lib$crate.a
    if [ -f "$kits" ] && [ -z "$(newer "$kits" crates crates.txt)" ]; then
        echo "== taking the archive $kits: it is newer than every source"
        return
    fi
    echo "== proving and building the archive (tools/staticlib $crate)"
    proved tools/staticlib "$crate"
}

# further_calls: sets beside to what a program links so that it has the calls of undernshade_passes.h and undernshade_table.h: nothing where
# $archive has them, else the kit's archives of them; none for this machine's own code, and -DWITHOUT_PASSES or -DWITHOUT_TABLE instead.
further_calls() {
    beside=()
    need binutils nm
    further us_give c_passes WITHOUT_PASSES 'pass lines'
    further us_table_read c_table WITHOUT_TABLE 'lines of the table'
}

# further CALL CRATE WORD LINES
further() {
    ! nm "$archive" 2>/dev/null | grep -q " T $1\$" || return 0
    if [ "${NATIVE:-}" = 1 ]; then
        echo "== $archive has no $1: $4 are left out"
        beside+=("-D$3")
    else
        kit_archive "$2"
        beside+=("$kits")
    fi
}

# build_program FILE SOURCE..
build_program() {
    local file=$1
    shift
    mkdir -p "$(dirname "$file")"
    # shellcheck disable=SC2086
    "${compiler[@]}" "${strict[@]}" ${CPPFLAGS:-} -o "$file" "$@" "$archive" || fail "$file was not built"
}

# build_rattle CRATE FILE: the program of a crate, after set_up_rattle. Its C is the kit's own, as when `rt run` links it.
build_rattle() {
    local crate=$1 file=$2 object=target/obj/$1.o kit
    if [ -f "$object" ] && [ -z "$(newer "$object" crates crates.txt)" ]; then
        echo "== taking $object: it is newer than every source"
    else
        echo "== proving and building the program $crate (tools/program $crate)"
        proved tools/program "$crate"
    fi
    mkdir -p "$(dirname "$file")"
    kit=$(dirname "$(rt doc)")
    "${rattle_compiler[@]}" -o "$file" "$object" "$kit/c/libos_c.a" "$kit/c/liblibc_c.a" || fail "$file was not built"
}

# sum_counts FILE: lines `title name=number ..`, those of one title added up.
sum_counts() {
    awk '{ if (!($1 in order)) { order[$1] = ++rows; title[rows] = $1 }
           for (i = 2; i <= NF; i++) { split($i, pair, "="); key = $1 " " pair[1]
               if (!(key in sum)) keys[$1] = keys[$1] " " pair[1]
               sum[key] += pair[2] } }
         END { for (r = 1; r <= rows; r++) { line = title[r]; many = split(keys[title[r]], names, " ")
               for (i = 1; i <= many; i++) line = line sprintf(" %s=%.0f", names[i], sum[title[r] " " names[i]])
               print line } }' "$1"
}
