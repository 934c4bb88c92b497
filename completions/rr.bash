# Completion of rr for bash: commands, languages, and file names after the colon.
_rr() {
    local line=${COMP_LINE:0:COMP_POINT} current word language found
    local -a words
    # commands.txt: BEGIN (bench/commands.py writes these lines; plain are the places of words that are neither operands nor languages)
    local commands='equal within disjoint clear differences check list from between nth rank canon canon1 union common minus translate split infer drill help explain version'
    local languages='rrule vcal graph list canon rscale'
    local targets='rrule vcal graph'
    local refusals='TooLong NotText BadLine SeveralEvents NoStart BadMoment MixedKinds BadRule PartTwice NumberRange UntilAndCount NotAllowed LeapSecond UtcMoment UntilKind UntilBeforeStart NotSynchronised PeriodValue Extended BadJson BadMember StartDiffers NoOccurrence IntervalTooLarge CycleTooLong CountedTooFar TooManyMoments NotSayable TooManyParts NotCanonical MixedSets PastRange NotRising'
    local plain='3:clear 5:clear 3:differences 3:list 3:from 4:from 3:between 4:between 3:nth 3:rank 3:split 3:drill 4:drill'
    # commands.txt: END
    # (bash takes a colon for the end of a word, so the words are those between blanks)
    read -ra words <<<"$line"
    current=${line##*[[:space:]]}
    [ -n "$current" ] || words+=('')
    COMPREPLY=()
    case ${#words[@]}:${words[1]-} in
    [01]:* | 2:*)
        mapfile -t COMPREPLY < <(compgen -W "$commands" -- "$current")
        return
        ;;
    3:translate)
        mapfile -t COMPREPLY < <(compgen -W "$targets" -- "$current")
        return
        ;;
    4:split)
        mapfile -t COMPREPLY < <(compgen -W 'graph vcal' -- "$current")
        return
        ;;
    3:help)
        mapfile -t COMPREPLY < <(compgen -W "$commands" -- "$current")
        return
        ;;
    3:explain)
        mapfile -t COMPREPLY < <(compgen -W "$refusals" -- "$current")
        return
        ;;
    *:help | *:explain | *:version) return ;;
    esac
    case " $plain " in
    *" ${#words[@]}:${words[1]} "*) return ;;
    esac
    language=${current%%[:@]*}
    case " $languages " in
    *" $language "*) ;;
    *) language= ;;
    esac
    case $language/$current in
    ?*/"$language":*) word=${current#*:} ;;
    ?*/"$language"@*:*:*) word=${current#*:*:} ;;
    *)
        mapfile -t COMPREPLY < <(compgen -S : -W "$languages" -- "${current%:}")
        compopt -o nospace 2>/dev/null
        return
        ;;
    esac
    compopt -o filenames 2>/dev/null
    while IFS= read -r found; do
        COMPREPLY+=("$found")
    done < <(compgen -f -- "$word")
}
complete -F _rr rr
