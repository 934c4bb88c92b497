# What the program is made of, for the scripts that read this file: crates.txt, and each .rt and .antt file under crates/. What checks
# leave in a crate's out/ and the edits that must be refused are no part of it. Each call takes the top of the repository first.

# digest_of_sources TOP prints one digest over the names and the bytes of the sources: 64 hexadecimal digits. It asks neither git nor the clock.
digest_of_sources() (
    cd -- "$1" || exit 1
    {
        printf 'crates.txt\0'
        find crates -regex 'crates/[^/]*/out' -prune -o -type f \( -name '*.rt' -o -name '*.antt' \) -print0
    } | LC_ALL=C sort -z | xargs -0 sha256sum -- | sha256sum | cut -d ' ' -f 1
)

# each_source TOP ACTION.. does find's ACTION on each source and each folder of sources, whose paths are from the top. The folder of a crate does
# not count, since a check makes out/ in it.
each_source() (
    cd -- "$1" || exit 1
    shift
    exec find crates.txt crates -regex 'crates/[^/]*/\(out\|must-fail\)' -prune -o \
        \( -type d -path 'crates/*/*' -o -name crates.txt -o -name '*.rt' -o -name '*.antt' \) "$@"
)

# first_newer TOP FILE prints the first source or folder of sources that is newer than FILE, and nothing if there is none. A file that is
# deleted changes its folder alone.
first_newer() {
    each_source "$1" -newer "$2" -print -quit
}

# learn_digest TOP prints the digest of the sources. For known_digest it keeps, under the name of the digest, a list of the sources and of their
# folders but those of proofs. The list is written before the sources are read, so that what changes meanwhile is newer.
learn_digest() (
    cd -- "$1" || exit 1
    list=out/sources.$$
    { mkdir -p out && each_source . ! \( -type d -regex 'crates/[^/]*/proofs\(/.*\)?' \) -print0 >"$list"; } 2>/dev/null
    digest=$(digest_of_sources .)
    { rm -f -- out/sources-* && mv -f -- "$list" "out/sources-$digest"; } 2>/dev/null
    echo "$digest"
)

# known_digest TOP prints the digest of the sources if nothing on the list that learn_digest has kept has changed since. Otherwise it fails. Only
# a file that is new among proofs goes unseen, which changes neither code nor clause.
known_digest() (
    cd -- "$1" || exit 1
    for list in out/sources-*; do
        [ -f "$list" ] || exit 1
        # (an older find has no -files0-from, and then takes longer)
        changed=$({ find -files0-from "$list" -maxdepth 0 -cnewer "$list" -print -quit ||
            xargs -0 sh -c 'list=$1 && shift && exec find "$@" -maxdepth 0 -cnewer "$list" -print -quit' sh "$list" <"$list"; } 2>/dev/null) || continue
        [ -n "$changed" ] || { echo "${list#out/sources-}" && exit 0; }
    done
    exit 1
)

# is_built_of TOP CRATE DIGEST: whether out/built-of, which is written after a build and after a gate that passed, says that the built program of
# the crate is of the sources with this digest.
is_built_of() (
    cd -- "$1" && [ -x "crates/$2/out/$2" ] && [ -f out/built-of ] || exit 1
    read -r digest <out/built-of && [ "$digest" = "$3" ] && [ -z "$(find "crates/$2/out/$2" -newer out/built-of)" ]
)

# is_built TOP CRATE: whether the built program of the crate is of the sources that stand here: none of them is newer, or out/built-of says so.
is_built() {
    [ -x "$1/crates/$2/out/$2" ] || return 1
    [ -n "$(first_newer "$1" "crates/$2/out/$2")" ] || return 0
    is_built_of "$1" "$2" "$(digest_of_sources "$1")"
}
