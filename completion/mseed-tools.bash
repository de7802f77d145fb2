# Completion of the tools of mseed for bash: the options of each, their values, and files. Written by
# tests/tool_pages.py.

# Of a tool: its options, those with a value that is no file's name, and what may stand behind one that has few values.
_mseed_tool_words()
{
    case $1 in
        mseed-archive)
            options='--help -h'
            values=''
            ;;
        mseed-dask-audit)
            options='--help --jobs --list --parts --scheduler -h -j'
            values='--jobs --scheduler -j'
            ;;
        mseed-extract)
            options='--channels --everywhere --from --help --jobs --list --until -h -j'
            values='--channels --from --jobs --until -j'
            ;;
        mseed-fdsnws)
            options='--address --help --limit --port --state -h'
            values='--address --limit --port'
            ;;
        mseed-fetch-on)
            options='--address --from --help --holes --network --port --sds --station --tell-next --timeout
                --tries -h'
            values='--address --from --network --port --station --timeout --tries'
            ;;
        mseed-gaps)
            options='--by-time --csv --help --jobs --json --json-keys --state -h -j'
            values='--jobs -j'
            ;;
        mseed-sds)
            options='--each --help --jobs --json --state -h -j'
            values='--jobs -j'
            ;;
        mseed-slurm)
            options='--help --job --list --parts --sbatch --tasks -h'
            values='--sbatch --tasks'
            case $2 in --job) choices='task join' ;; esac
            ;;
        mseed-timeline)
            options='--from --help --jobs --output --state --title --until -h -j'
            values='--from --jobs --title --until -j'
            ;;
    esac
}

_mseed_tool()
{
    local word=${COMP_WORDS[COMP_CWORD]} before=${COMP_WORDS[COMP_CWORD - 1]} proposed= at
    local options= values= choices=

    # Where nothing is proposed, bash proposes files, as after a redirection.
    COMPREPLY=()
    [[ $before == *[\<\>] ]] && return

    # Bash parts --jobs=4 at the sign.
    [ "$word" = = ] && word=
    [ "$before" = = ] && before=${COMP_WORDS[COMP_CWORD - 2]}
    for ((at = 1; at < COMP_CWORD; at++)); do
        [ "${COMP_WORDS[at]}" = -- ] && return
    done
    _mseed_tool_words "${COMP_WORDS[0]##*/}" "$before"
    values=${values//[[:space:]]/ }
    if [ "$choices" ]; then
        proposed=$choices
    elif [[ " $values " == *" $before "* ]]; then
        compopt +o bashdefault +o default 2> /dev/null
    elif [[ $word == -* ]]; then
        proposed=$options
    fi
    [ "$proposed" ] && mapfile -t COMPREPLY < <(compgen -W "$proposed" -- "$word")
}

complete -o bashdefault -o default -F _mseed_tool \
    mseed-archive mseed-dask-audit mseed-extract mseed-fdsnws mseed-fetch-on mseed-gaps mseed-sds \
    mseed-slurm mseed-timeline
