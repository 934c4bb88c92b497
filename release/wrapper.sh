# What both wrappers, rr and rr-calendars, do before they run a program. They run the shipped program if it is of these sources and runs here; if
# there is no GNU C library of its age, the shipped program that needs none; otherwise the one that was built here, which is proved and
# built first if it is missing or older than its sources. If no program can run here, they say so in one sentence and end with 125,
# which is no status of a program. The script that reads this file has set here, the top of the repository, name, that of the
# command, and crate, that of the program.
shipped=$here/release/$name-x86_64-linux
static=$shipped-static
built=$here/crates/$crate/out/$crate
made=$here/out/built-of
. "$here/release/sources.sh"

# Says in one sentence why no program can run here.
cannot_run() {
    echo "$name: $*" >&2
    exit 125
}

# is_shipped_of DIGEST: whether the shipped programs are of the sources with this digest.
is_shipped_of() {
    [ -x "$shipped" ] && [ -f "$here/release/SOURCES" ] && read -r digest <"$here/release/SOURCES" && [ "$digest" = "$1" ]
}

# Whether a shipped program runs here: without words it ends with 3. If the C library or the processor is too old, it ends before that.
runs() {
    "$1" </dev/null >/dev/null 2>&1
    [ $? -eq 3 ]
}

# Says in program which shipped program runs here, if one does.
choose_shipped() {
    program=$shipped
    if [ -e /lib64/ld-linux-x86-64.so.2 ] && runs "$program"; then
        return 0
    fi
    program=$static
    [ -x "$program" ] && runs "$program"
}

# Passes on how many functions of each library are proved, and what can't be proved. It fails if the program was not run in the end.
progress() {
    awk -v command="$name" -v libraries="$(grep -c '^[a-z_]*:' "$here/crates.txt")" '
        /^checked [a-z_]+::.*, [0-9]+ of [0-9]+$/ && $(NF - 2) >= said + 20 {
            said = $(NF - 2); name = $2; sub(/::.*/, "", name)
            printf "%s: %s: %d of %d functions proved\n", command, name, said, $NF; fflush() }
        /^logic=proved functions=/ {
            n += 1; said = 0; sub(/.*functions=/, ""); functions += $1
            printf "%s: %d of %d libraries proved, with %d functions\n", command, n, libraries, functions; fflush() }
        /error|no proof/ { print command ": " $0; fflush() }
        /^rt: running / { ran = 1 }
        END { exit !ran }'
}

# Proves and builds the program; $1 says why no shipped one can be run.
build() {
    command -v rt >/dev/null 2>&1 || cannot_run "$1, and building it needs the command rt of the Rattle kit"
    echo "$name: $1, so it is proved and built here; the first time takes half an hour or more on four processors" >&2
    mkdir -p "$here/out" && digest=$(digest_of_sources "$here") || cannot_run "no program can be built here, since $here can't be written"
    if ! (cd "$here/crates/$crate" && rt run -- </dev/null 2>&1 >/dev/null) | progress >&2; then
        cannot_run "the program could not be built; 'rt check' in crates/$crate says why"
    fi
    echo "$digest" >"$made"
    echo "$name: built" >&2
}

# choose DIGEST says in program which one to run, if there is one of the sources with this digest that runs here.
choose() {
    reason='no program of these sources is shipped here'
    if is_shipped_of "$1"; then
        ! choose_shipped || return 0
        reason='the shipped program does not run on this machine'
    fi
    program=$built
    is_built_of "$here" "$crate" "$1"
}

# Says in program which one to run. The digest that is known serves if there is a program of it; otherwise it is taken anew.
choose_program() {
    ! sources=$(known_digest "$here") || ! choose "$sources" || return 0
    ! choose "$(learn_digest "$here")" || return 0
    is_built "$here" "$crate" || build "$reason"
}
