# Completion of mseed for bash: commands, the options of each, their values, and files.

# The commands, where none is there yet, else the options of one.
_mseed_words()
{
    case $1 in
        "") echo audit join show select repack serve fetch --help --version ;;
        audit) echo --each --part --channels --from --until ;;
        join) echo --part --each --past-faults --expect ;;
        show | select) echo --channels --from --until ;;
        repack) echo --length --encoding --stretches --leave --channels --from --until ;;
        serve) echo --port --station --network --address --timeout --capacity --first --connections --live --clients ;;
        fetch) echo --port --station --network --address --timeout --from --tries --tell-next --holes ;;
    esac
}

_mseed()
{
    local word=${COMP_WORDS[COMP_CWORD]} before=${COMP_WORDS[COMP_CWORD - 1]} command= ended= proposed= at

    # Where nothing is proposed, bash proposes files, as after a redirection.
    COMPREPLY=()
    [[ $before == *[\<\>] ]] && return

    # Bash parts --length=512 at the sign.
    [ "$word" = = ] && word=
    [ "$before" = = ] && before=${COMP_WORDS[COMP_CWORD - 2]}
    for ((at = 2; at < COMP_CWORD; at++)); do
        [ "${COMP_WORDS[at]}" = -- ] && ended=yes
    done

    # The command is the first argument; behind another one there is none.
    if ((COMP_CWORD > 1)); then
        case ${COMP_WORDS[1]} in
            audit | join | show | select | repack | serve | fetch) command=${COMP_WORDS[1]} ;;
            *)
                compopt +o bashdefault +o default 2> /dev/null
                return
                ;;
        esac
    fi
    case $command in
        "" | serve | fetch) compopt +o bashdefault +o default 2> /dev/null ;;
    esac
    [ "$ended" ] && return
    case $before in
        --length) proposed='128 256 512 1024 2048 4096' ;;
        --encoding) proposed='int16 int32 steim1 steim2' ;;
        --address) [ "$command" = fetch ] && mapfile -t COMPREPLY < <(compgen -A hostname -- "$word") ;;
        --expect | --port | --station | --network | --timeout | --capacity | --first | --connections | --clients | \
            --from | --tries | --channels | --until)
            compopt +o bashdefault +o default 2> /dev/null
            ;;
        *) [[ ! $command || $word == -* ]] && proposed=$(_mseed_words "$command") ;;
    esac
    [ "$proposed" ] && mapfile -t COMPREPLY < <(compgen -W "$proposed" -- "$word")
}

complete -o bashdefault -o default -F _mseed mseed
