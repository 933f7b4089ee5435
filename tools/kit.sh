# What the scripts share that prove, build or run something: where the Rattle kit's tools are, how its programs are run, and the library for hosts. Sourced.

# need_kit NAME: ends the script NAME with status 2 if the kit is not there; otherwise says where its tools are, and tells if it is another kit than README.md names.
# Run at the top of the repository.
need_kit() {
    if ! command -v rt >/dev/null 2>&1; then
        echo "$1: the Rattle kit is not installed: there is no command 'rt' on the PATH." >&2
        echo "$1: install the kit that README.md names (its 'rt version' line), put its bin/ folder on the PATH, and try again." >&2
        exit 2
    fi
    kit=${RATTLE_HOME:-$(cd "$(dirname "$(readlink -f "$(command -v rt)")")/.." && pwd -P)}
    tools=$kit/toolchain
    kit_named=$(sed -n 's/^    \(rattle-kit-[^ ]* logic .*\)$/\1/p' README.md | head -n 1) kit_there=$(rt version)
    [ "$kit_there" = "$kit_named" ] ||
        echo "$1: the kit is '$kit_there', and README.md names '$kit_named': what the one proves the other may refuse" >&2
}

# crates_of NAME: how many crates of crates.txt a check of NAME proves, NAME itself among them.
crates_of() {
    awk -v want="$1" '
        /^[a-z]/ { name = $1; sub(/:.*/, "", name); line = $0; sub(/^[^:]*:/, "", line); uses[name] = line; names[name] = 1 }
        END { left[want] = 1; n = 0
              do { more = 0; for (c in left) if (!(c in seen) && (c in names)) { seen[c] = 1; n++; more = 1; k = split(uses[c], u, " "); for (i = 1; i <= k; i++) left[u[i]] = 1 } } while (more)
              print n }' crates.txt
}

# progress NAME TOTAL: passes on standard input to standard output and tells on standard error, a plain line each, at which crate of how many a check or a build is. (A loop of the shell: an awk may hold its input back until it has a lot of it.)
progress() {
    progress_at=0 progress_crate=''
    while IFS= read -r progress_line; do
        printf '%s\n' "$progress_line"
        case $progress_line in
        'rt: chose --jobs '*' for '*)
            [ "${progress_line##* for }" != "$progress_crate" ] || continue
            progress_crate=${progress_line##* for }
            progress_at=$((progress_at + 1))
            echo "$1: $progress_at of at most $2: $progress_crate" >&2
            ;;
        esac
    done
}

# As rt runs a program: under the kit's loader and C library, and on another processor than x86-64 under the kit's emulator.
run() { # PROGRAM WORDS..
    emulator=$tools/bin/qemu-x86_64
    [ -x "$emulator" ] || emulator=''
    ${emulator:+"$emulator"} "$tools/lib/ld-linux-x86-64.so.2" --library-path "$tools/lib" "$@"
}

# proving NAME LOG WORD CRATE: runs `rt WORD` for the crate, with its progress on standard error and what it says in the file LOG; ends the script NAME
# with status 1 if something is not proved. Run at the top of the repository.
proving() {
    mkdir -p "$(dirname "$2")"
    echo "$1: proving $4 and what it uses, $(crates_of "$4") crates" >&2
    {
        (cd "crates/$4" && rt "$3" 2>&1)
        echo $? >"$2.status"
    } | progress "$1" "$(crates_of "$4")" >"$2"
    [ "$(cat "$2.status")" != 0 ] || return 0
    echo "$1: $4 is not proved; $2 has what was said:" >&2
    tail -n 20 "$2" >&2
    exit 1
}

# prove_program NAME LOG CRATE: proves and builds a program, which is then target/bin/CRATE; ends the script NAME with status 1 if something is not proved.
# The kit builds a program only to run it, so it is run once, in its crate's folder and with no input; what it says there counts for nothing.
prove_program() {
    proving "$1" "$2" check "$3"
    rm -f "crates/$3/out/$3"
    (cd "crates/$3" && rt run </dev/null >/dev/null 2>&1)
    mkdir -p target/bin
    cp "crates/$3/out/$3" "target/bin/$3" || { echo "$1: $3 is not built" >&2; exit 1; }
}

# prove_library NAME: proves and builds target/staticlib/libgift_host.a, or ends the script NAME with status 1.
prove_library() {
    mkdir -p target/hosts target/staticlib
    proving "$1" target/hosts/staticlib.log lib gift_host
    cp crates/gift_host/out/libgift_host.a target/staticlib/libgift_host.a || { echo "$1: the library is not built" >&2; exit 1; }
}

# over_library SOURCE PROGRAM: builds a program in C over the library for hosts with the kit's own compiler, linker and C library. The kit has no headers: those of hosts/c/libc say
# what the programs need.
over_library() {
    "$tools/bin/clang" --target=x86_64-linux-gnu -std=c11 -O2 -fPIE -nostdinc -isystem hosts/c/libc \
        -Wall -Wextra -Wpedantic -Werror -c -o "$2.o" "$1" &&
        "$tools/bin/ld.lld" -pie -dynamic-linker /lib64/ld-linux-x86-64.so.2 -o "$2" \
            "$tools/lib/Scrt1.o" "$tools/lib/crti.o" "$2.o" target/staticlib/libgift_host.a "$tools/lib/libc.so.6" "$tools/lib/crtn.o"
}

# ready_library NAME: as prove_library, but an archive that is there and has the checksum that the gate holds it to is not proved again: the kit would prove gift_host at every call.
ready_library() {
    sha256sum --status -c include/libgift_host.sha256 2>/dev/null || prove_library "$1"
}

# need_key NAME FILE SAID: ends the script NAME with status 2 if FILE, which was called SAID, is no file of 16 bytes.
need_key() {
    if [ ! -f "$2" ] || [ ! -r "$2" ]; then
        echo "$1: $3: it is no file that can be read" >&2
        exit 2
    fi
    need_key_size=$(wc -c <"$2")
    [ "$need_key_size" = 16 ] || { echo "$1: $3: a key has 16 bytes, and this file has $need_key_size" >&2; exit 2; }
}

# refusal_words NUMBER: what include/gift_refusals.h says of a refusal.
refusal_words() {
    for refusal_name in $(sed -n "s/^#define \(GIFT_[A-Z_]*\) *$1 .*/\1/p" include/gift_host.h); do
        sed -n "s/^ *case $refusal_name: return \"\(.*\)\";.*/\1/p" include/gift_refusals.h
    done
}

# desk_program NAME PROGRAM: has the proved library, and builds desk/PROGRAM.c over it as target/desk/PROGRAM; ends the script NAME with status 2 if either fails.
desk_program() {
    (ready_library "$1") </dev/null || exit 2
    mkdir -p target/desk
    over_library "desk/$2.c" "target/desk/$2" || { echo "$1: desk/$2.c is not built" >&2; exit 2; }
}

# measure NAME: builds speed/NAME.c over the library for hosts with the kit's own compiler, linker and C library, and runs it.
# Ends the script with status 1 if something is not proved, with 2 if something is missing, and else as the program does. Run at the top of the repository.
measure() {
    need_kit "speed/$1"
    if [ "$(uname -m)" != x86_64 ]; then
        echo "speed/$1: the library is x86-64 code, and a time measured under an emulator says nothing." >&2
        exit 2
    fi
    prove_library "speed/$1"
    out=target/hosts
    over_library "speed/$1.c" "$out/$1" ||
        { echo "speed/$1: $1.c is not built" >&2; exit 2; }
    run "$out/$1"
}
