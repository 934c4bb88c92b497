#!/bin/sh
# Tries the man pages and the completions: mandoc finds nothing to warn of, and each shell completes commands, languages and file names.
# What is not installed is skipped by name. It prints what fails, then 'N passed, M failed'; the status is 0 if nothing failed.
set -u
here=$(CDPATH='' cd -- "$(dirname -- "$0")/.." && pwd) || exit 1
cd "$here" || exit 1
passed=0 failed=0

# tell STATUS TEXT counts a try, and says TEXT if it failed.
tell() {
    if [ "$1" -eq 0 ]; then
        passed=$((passed + 1))
    else
        failed=$((failed + 1))
        echo "FAILED: $2"
    fi
}

# expect SHELL LINE WORD FOUND: among what a shell offers after LINE is WORD.
expect() {
    case " $4 " in
    *" $3 "*) tell 0 ;;
    *) tell 1 "$1 completes '$2' to: $4" ;;
    esac
}

# refuse SHELL LINE WORD FOUND: among what a shell offers after LINE is no WORD.
refuse() {
    case " $4 " in
    *" $3 "*) tell 1 "$1 completes '$2' to: $4" ;;
    *) tell 0 ;;
    esac
}

has() {
    command -v "$1" >/dev/null 2>&1 || { echo "skipped: $1 is not installed"; return 1; }
}

if has mandoc; then
    mandoc -T lint -W warning docs/rr.1 docs/rr-calendars.1
    tell $? 'mandoc warns of a man page'
fi

in_bash() {
    bash -c '. completions/rr.bash; COMP_LINE=$1; COMP_POINT=${#1}; _rr 2>/dev/null; echo ${COMPREPLY[*]}' '' "$1"
}

calendars_in_bash() {
    bash -c '. completions/rr-calendars.bash; COMP_WORDS=($1); COMP_CWORD=$((${#COMP_WORDS[@]} - 1)); _rr_calendars 2>/dev/null; echo ${COMPREPLY[*]}' '' "$1"
}

in_fish() {
    fish --no-config -c 'source completions/rr.fish; complete -C $argv[1]' -- "$1" | cut -f 1 | tr '\n' ' '
}

# (zsh completes at a terminal alone: here its builtins print what the function hands them)
in_zsh() {
    zsh -f -c '
        setopt extendedglob
        compadd() { while [[ $1 != -- ]] { shift }; shift; print -r -- "$@" }
        compset() { [[ $PREFIX == (#b)(${~2})(*) ]] && PREFIX=$match[-1] }
        _files() { print -r -- ${PREFIX}*(N) }
        _message() { : }
        words=("${(@s: :)1}") CURRENT=${#words} PREFIX=${words[-1]}
        . completions/_rr' '' "$1" | tr '\n' ' '
}

for shell in bash fish; do
    has $shell || continue
    expect $shell 'rr tra' translate "$(in_$shell 'rr tra')"
    expect $shell 'rr translate gr' graph "$(in_$shell 'rr translate gr')"
    expect $shell 'rr check rr' rrule: "$(in_$shell 'rr check rr')"
    expect $shell 'rr cl' clear "$(in_$shell 'rr cl')"
    expect $shell 'rr union rrule:a ca' canon: "$(in_$shell 'rr union rrule:a ca')"
    expect $shell 'rr nth 3 rs' rscale: "$(in_$shell 'rr nth 3 rs')"
    expect $shell 'rr nth 3 ca' canon: "$(in_$shell 'rr nth 3 ca')"
    expect $shell 'rr clear 60 rrule:a 60 ca' canon: "$(in_$shell 'rr clear 60 rrule:a 60 ca')"
    expect $shell 'rr help tra' translate "$(in_$shell 'rr help tra')"
    expect $shell 'rr explain Utc' UtcMoment "$(in_$shell 'rr explain Utc')"
    refuse $shell 'rr help list ' rrule: "$(in_$shell 'rr help list ')"
    refuse $shell 'rr nth ' canon: "$(in_$shell 'rr nth ')"
    refuse $shell 'rr clear 60 rrule:a ' canon: "$(in_$shell 'rr clear 60 rrule:a ')"
done
if has bash; then
    expect bash 'rr check rrule:examples/stand' examples/standup.ics "$(in_bash 'rr check rrule:examples/stand')"
    expect bash 'rr check rrule@+01:00:examples/stand' examples/standup.ics "$(in_bash 'rr check rrule@+01:00:examples/stand')"
    expect bash 'rr-calendars --d' --differences "$(calendars_in_bash 'rr-calendars --d')"
    expect bash 'rr-calendars examples/calendar-o' examples/calendar-old.ics "$(calendars_in_bash 'rr-calendars examples/calendar-o')"
fi
if has fish; then
    expect fish 'rr-calendars --d' --differences "$(fish --no-config -c 'source completions/rr-calendars.fish; complete -C $argv[1]' -- 'rr-calendars --d' | cut -f 1 | tr '\n' ' ')"
    expect fish 'rr check rrule:examples/stand' rrule:examples/standup.ics "$(in_fish 'rr check rrule:examples/stand')"
    expect fish 'rr check rrule@+01:00:examples/stand' rrule@+01:00:examples/standup.ics "$(in_fish 'rr check rrule@+01:00:examples/stand')"
fi
if has zsh; then
    expect zsh 'rr tra' translate "$(in_zsh 'rr tra')"
    expect zsh 'rr translate gr' graph "$(in_zsh 'rr translate gr')"
    expect zsh 'rr check rr' rrule: "$(in_zsh 'rr check rr')"
    expect zsh 'rr clear 60 rrule:a 60 ca' canon: "$(in_zsh 'rr clear 60 rrule:a 60 ca')"
    expect zsh 'rr help tra' translate "$(in_zsh 'rr help tra')"
    expect zsh 'rr explain Utc' UtcMoment "$(in_zsh 'rr explain Utc')"
    refuse zsh 'rr help list ' rrule: "$(in_zsh 'rr help list x')"
    refuse zsh 'rr nth ' canon: "$(in_zsh 'rr nth 1')"
    refuse zsh 'rr clear 60 rrule:a ' canon: "$(in_zsh 'rr clear 60 rrule:a 6')"
    expect zsh 'rr check rrule:examples/stand' examples/standup.ics "$(in_zsh 'rr check rrule:examples/stand')"
    expect zsh 'rr check rrule@+01:00:examples/stand' examples/standup.ics "$(in_zsh 'rr check rrule@+01:00:examples/stand')"
fi
echo "$passed passed, $failed failed"
[ "$failed" -eq 0 ]
