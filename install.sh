#!/bin/sh
# Installs the shipped programs, their man pages, completions and pages: ./install.sh [--prefix DIR]. DIR is /usr/local if it is not given.
# Removes the same files: ./install.sh uninstall [--prefix DIR].
# If the programs do not run here, which need the GNU C library, it installs those that need no C library. On a machine for which libraries
# alone are shipped it installs these, and the Python module.
# With --libraries it installs the header, both libraries and librr.pc for C too, and with --python FOLDER the Python module with a library of its
# own, in a folder where Python looks for modules, as `python3 -c 'import site; print(site.getusersitepackages())'` prints one.
# uninstall removes the libraries always, and the Python module if its folder is given.
set -eu
top=$(CDPATH='' cd -- "$(dirname -- "$0")" && pwd)
prefix=/usr/local
kind=
removes=
libraries=
python=

usage() {
    echo 'usage: install.sh [uninstall] [--prefix DIR] [--libraries] [--python FOLDER]' >&2
    exit 3
}

while [ $# -gt 0 ]; do
    case $1 in
    uninstall | --uninstall) removes=yes ;;
    --prefix)
        [ $# -ge 2 ] || usage
        prefix=$2
        shift
        ;;
    --prefix=*) prefix=${1#--prefix=} ;;
    --libraries) libraries=yes ;;
    --python)
        [ $# -ge 2 ] && [ -n "$2" ] || usage
        python=$2
        shift
        ;;
    *) usage ;;
    esac
    shift
done
[ -n "$prefix" ] || usage

fail() {
    echo "install.sh: $*" >&2
    exit 1
}

# Says in machine which machine this is, as the names in release/ say it, and in shared, number and link how its shared libraries are called.
choose_machine() {
    machine=x86_64-linux shared=so number=librr.so.1 link=librr.so
    case $(uname -sm) in
    'Linux x86_64') ;;
    'Linux aarch64') machine=aarch64-linux ;;
    'Darwin arm64') machine=aarch64-macos ;;
    'Darwin x86_64') machine=x86_64-macos ;;
    *) [ -n "$removes" ] || fail "nothing is shipped for $(uname -sm)" ;;
    esac
    case $machine in
    *-macos) shared=dylib number=librr.1.dylib link=librr.dylib ;;
    esac
}

# Whether a program for this machine is shipped.
has_program() {
    [ -f "$top/release/rr-$machine" ] || [ -f "$top/release/rr-$machine-static" ]
}

# Whether the files of release are those of SHA256SUMS. (sha256sum gets no options, since busybox knows none but -c.)
sums_hold() (
    cd -- "$top/release" || exit 1
    if command -v sha256sum >/dev/null 2>&1; then
        sha256sum -c SHA256SUMS >/dev/null
    else
        shasum -a 256 -c SHA256SUMS >/dev/null
    fi
)

# Says in kind which shipped programs run here, that end with 3 if they have no words: those over the GNU C library, or the static ones.
choose_kind() {
    for kind in '' -static; do
        "$top/release/rr-$machine$kind" </dev/null >/dev/null 2>&1 || [ $? -ne 3 ] || return 0
    done
    fail 'no shipped program runs on this machine'
}

# What is installed: its place here, its place under a folder, and its mode.
program_files() {
    cat <<END
release/rr-$machine$kind bin/rr 755
release/rr-calendars-$machine$kind bin/rr-calendars 755
END
    cat <<'END'
docs/rr.1 share/man/man1/rr.1 644
docs/rr-calendars.1 share/man/man1/rr-calendars.1 644
completions/rr.bash share/bash-completion/completions/rr 644
completions/_rr share/zsh/site-functions/_rr 644
completions/rr.fish share/fish/vendor_completions.d/rr.fish 644
completions/rr-calendars.bash share/bash-completion/completions/rr-calendars 644
completions/_rr-calendars share/zsh/site-functions/_rr-calendars 644
completions/rr-calendars.fish share/fish/vendor_completions.d/rr-calendars.fish 644
LICENSE-MIT share/doc/rr/LICENSE-MIT 644
LICENSE-APACHE share/doc/rr/LICENSE-APACHE 644
END
    # (all pages, so that their links to one another lead somewhere)
    for page in "$top"/docs/*.md; do
        echo "docs/${page##*/} share/doc/rr/${page##*/} 644"
    done
}

library_files() {
    cat <<END
include/rr.h include/rr.h 644
release/librr-$machine.a lib/librr.a 644
release/librr-$machine.$shared lib/$number 755
END
}

python_files() {
    cat <<END
python/rr/__init__.py rr/__init__.py 644
python/rr/__main__.py rr/__main__.py 644
python/rr/_library.py rr/_library.py 644
python/rr/_report.py rr/_report.py 644
python/rr/_series.py rr/_series.py 644
python/rr/py.typed rr/py.typed 644
release/VERSION rr/VERSION 644
LICENSE-MIT rr/LICENSE-MIT 644
LICENSE-APACHE rr/LICENSE-APACHE 644
docs/LICENCES.md rr/LICENCES.md 644
release/librr-$machine.$shared rr/$link 755
END
}

# write_pkg_config writes what pkg-config says of the libraries, whose folders have to be whole paths.
write_pkg_config() {
    to=$prefix/lib/pkgconfig/librr.pc
    mkdir -p -- "$prefix/lib/pkgconfig"
    whole=$(CDPATH='' cd -- "$prefix" && pwd)
    sed -e "s,@prefix@,$whole," -e "s,@libdir@,$whole/lib," -e "s,@version@,$(cat -- "$top/release/VERSION")," "$top/include/librr.pc.in" >"$to.new"
    mv -f -- "$to.new" "$to"
    echo "$to"
}

# install FOLDER puts the files of the standard input in their places under it, each whole at once.
install() {
    while read -r from to mode; do
        [ -f "$top/$from" ] || continue
        mkdir -p -- "$(dirname -- "$1/$to")"
        cp -- "$top/$from" "$1/$to.new"
        chmod "$mode" "$1/$to.new"
        mv -f -- "$1/$to.new" "$1/$to"
        echo "$1/$to"
    done
}

# remove FOLDER removes them.
remove() {
    while read -r _ to _; do
        if [ -e "$1/$to" ] || [ -L "$1/$to" ]; then
            rm -f -- "$1/$to"
            echo "removed $1/$to"
        fi
    done
    [ ! -d "$1/share/doc/rr" ] || rmdir -- "$1/share/doc/rr" 2>/dev/null || true
}

choose_machine
if [ -n "$removes" ]; then
    { program_files && library_files && printf '%s\n' "- lib/$link -" '- lib/pkgconfig/librr.pc -'; } | remove "$prefix"
    if [ -n "$python" ]; then
        python_files | remove "$python"
        rm -rf -- "$python/rr/__pycache__"
        [ ! -d "$python/rr" ] || rmdir -- "$python/rr"
    fi
    exit 0
fi
[ -f "$top/release/SHA256SUMS" ] || fail 'no program is shipped here'
sums_hold || fail 'the files of release are not those of SHA256SUMS'
[ -z "$libraries$python" ] || [ -f "$top/release/librr-$machine.$shared" ] || fail "no library for $machine is shipped"
if has_program; then
    choose_kind
    program_files | install "$prefix"
elif [ -z "$libraries$python" ]; then
    fail "no program for $machine is shipped"
fi
if [ -n "$libraries" ]; then
    library_files | install "$prefix"
    # (the linker looks for this name, the loader for the one with the number)
    ln -sf "$number" "$prefix/lib/$link"
    echo "$prefix/lib/$link"
    write_pkg_config
fi
[ -z "$python" ] || python_files | install "$python"
