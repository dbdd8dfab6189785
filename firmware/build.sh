# shellcheck shell=bash
# Sourced from the repository's root: builds the terminal over the archives of the store, the table and the passes, and the picture program, into build/firmware/, each
# where it is missing or older than what it is made of. STORE=peer builds the terminal over the second program instead, for this
# machine, so that the two can be compared. Archives, and what ARCHIVE and NATIVE mean: bench/common.sh.
. bench/common.sh

# More words for the compiler of what runs on this machine.
extra=()

terminal_parts=(terminal cuts watch chip roll draft shelf held depot calls steps layout)
picture_parts=(picture draw svg layout)
peer_parts=(flash unit job move homes judge place lists store passes table)

# older FILE WHAT..: whether the file is missing, or anything of the rest is newer.
older() {
    local file=$1
    shift
    [ ! -f "$file" ] || [ -n "$(newer "$file" "$@")" ]
}

# sources FOLDER NAME..: one file a line.
sources() {
    local folder=$1
    shift
    printf "$folder/%s.c\n" "$@"
}

prove_store() {
    command -v rt >/dev/null || fail "Rattle's command rt is not on the PATH: install the kit first (README.md)"
    local crate crates=(c_store c_passes c_table)
    echo "== proving the store, crate by crate (tools/staticlib ${crates[*]})"
    mkdir -p target
    tools/staticlib "${crates[@]}" 2>&1 | tee target/log | tools/progress "${crates[@]}"
    [ "${PIPESTATUS[0]}" -eq 0 ] || fail "the store is not proved: target/log has what the prover said"
    build_archive c_store
}

# build_over_peer FOLDER FILE: the terminal over the second program as it stands in the folder.
build_over_peer() {
    local parts compiler
    need gcc "${CC:-cc}"
    read -ra compiler <<<"${CC:-cc}"
    mapfile -t parts < <(sources firmware "${terminal_parts[@]}" peer peer_table; sources "$1" "${peer_parts[@]}")
    mkdir -p build/firmware
    "${compiler[@]}" "${strict[@]}" "${extra[@]}" -o "$2" "${parts[@]}" || fail "$2 was not built"
}

# Sets runner and terminal: what runs the terminal, and its file.
build_terminal() {
    local parts
    if [ "${STORE:-store}" = peer ]; then
        terminal=build/firmware/terminal-peer
        if older "$terminal" firmware include peer; then
            echo "== building the terminal over the second program"
            build_over_peer peer/store "$terminal"
        fi
        return
    fi
    [ "${STORE:-store}" = store ] || fail "STORE is 'store' or 'peer'"
    terminal=build/firmware/terminal archive=target/staticlib/libc_store.a
    own_headers='undernshade_passes.h undernshade_table.h' set_up_own
    if [ -n "${ARCHIVE:-}$own_archive" ]; then build_archive c_store; elif older "$archive" crates crates.txt; then prove_store; fi
    if [ -n "${ARCHIVE:-}" ] || older "$terminal" firmware include "$archive"; then
        echo "== building the terminal"
        further_calls
        case " ${beside[*]} " in *' -DWITHOUT_'*) fail "$archive has no us_give or no us_table_read, which the terminal uses" ;; esac
        mapfile -t parts < <(sources firmware "${terminal_parts[@]}")
        build_program "$terminal" "${parts[@]}" "${beside[@]}"
    fi
}

# compile_picture FILE
compile_picture() {
    local parts compiler
    need gcc "${CC:-cc}"
    read -ra compiler <<<"${CC:-cc}"
    mapfile -t parts < <(sources firmware "${picture_parts[@]}")
    mkdir -p build/firmware
    "${compiler[@]}" "${strict[@]}" "${extra[@]}" -o "$1" "${parts[@]}" || fail "the picture program was not built"
}

# Sets picture.
build_picture() {
    picture=build/firmware/picture
    if older "$picture" firmware; then compile_picture "$picture"; fi
}
