# Completion of rr for fish: commands, languages, and file names after the colon.
function __rr_operands
    set -l token (commandline -ct)
    set -l languages (string join '|' $__rr_languages)
    set -l parts (string match -r "^((?:$languages)(?:@[-+][0-9][0-9]:[0-9][0-9])?:)(.*)\$" -- $token)
    if test (count $parts) -ge 2
        for name in (__fish_complete_path "$parts[3]")
            echo $parts[2]$name
        end
    else
        printf '%s:\n' $__rr_languages
    end
end

function __rr_at
    set -l words (commandline -opc)
    test (count $words) -eq $argv[1]; or return 1
    test (count $argv) -eq 1; or contains -- $words[2] $argv[2..-1]
end

complete -c rr -f
# commands.txt: BEGIN (bench/commands.py writes these lines)
set -g __rr_languages rrule vcal graph list canon rscale
complete -c rr -n '__rr_at 1; or __rr_at 2 help' -a 'equal within disjoint clear differences check list from between nth rank canon canon1 union common minus translate split infer drill help explain version'
complete -c rr -n '__rr_at 2 translate' -a 'rrule vcal graph'
complete -c rr -n '__rr_at 2 explain' -a 'TooLong NotText BadLine SeveralEvents NoStart BadMoment MixedKinds BadRule PartTwice NumberRange UntilAndCount NotAllowed LeapSecond UtcMoment UntilKind UntilBeforeStart NotSynchronised PeriodValue Extended BadJson BadMember StartDiffers NoOccurrence IntervalTooLarge CycleTooLong CountedTooFar TooManyMoments NotSayable TooManyParts NotCanonical MixedSets PastRange NotRising'
complete -c rr -n '__rr_at 3 split' -a 'graph vcal'
complete -c rr -n '__rr_at 2 equal within disjoint check canon canon1 union common minus infer; or __rr_at 3 equal within disjoint clear differences list nth rank union common minus translate; or __rr_at 4 differences from between split; or __rr_at 5 clear' -a '(__rr_operands)'
# commands.txt: END
