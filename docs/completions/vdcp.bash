# What bash offers after vdcp, by the program's own help. It is read by: . vdcp.bash

# The help of a program, or of its subcommand. (The script of a tree, as ./vdcp, may build first: the program that is carried there tells it.)
_vdcp_help() {
    local carried=${1%vdcp}prebuilt/linux-x86_64/vdcp
    [[ $1 != */* || ! -x $carried ]] || set -- "$carried" "${@:2}"
    "$@" --help 2>/dev/null
}

_vdcp() {
    local words=() piece before='' word head='' help subcommand='' wish='' place=0 rest='' offers='' i
    # (bash cuts words at = and at :, and wants offers for the last piece alone)
    for ((i = 1; i <= COMP_CWORD; i++)); do
        piece=${COMP_WORDS[i]}
        if [[ -n $piece && ${#words[@]} -gt 0 && ( $piece != *[!:=]* || -n $before && $before != *[!:=]* ) ]]; then
            words[-1]+=$piece
        else
            words+=("$piece")
        fi
        before=$piece
    done
    COMPREPLY=()
    [[ ${#words[@]} -gt 0 ]] || return 0
    local last=${words[-1]}
    [[ $piece == *[!:=]* ]] || piece=
    local cut=${last%"$piece"}
    unset 'words[-1]'
    help=$(_vdcp_help "$1")
    offers=$(sed -n '/^Commands:/,/^$/s/^  \([a-z]*\) .*/\1/p' <<<"$help")
    for word in ${words[@]+"${words[@]}"}; do
        if [[ -n $wish ]]; then
            wish=
            continue
        fi
        case $rest$word in
        --) rest=1 ;;
        -*) [[ $help != *" $word <"* ]] || wish=$word ;;
        *) if [[ -z $subcommand ]]; then subcommand=$word help=$(_vdcp_help "$1" "$word"); else ((++place)); fi ;;
        esac
    done
    if [[ -z $wish$rest && $last == --*=* ]]; then wish=${last%%=*} head=${last%%=*}= last=${last#*=}; fi
    if [[ -n $wish ]]; then
        offers=$(sed -n "s/,//g; s/^ *$wish <FILE>.*/files/p; s/^ *$wish .*\[possible values: \(.*\)\]/\1/p" <<<"$help")
    elif [[ -z $rest && $last == -* ]]; then
        offers=$(grep -oE '^ +(-., )?--[a-z-]+' <<<"$help" | tr -d ,)
    elif [[ -n $subcommand && $subcommand:$place != help:0 ]]; then
        read -ra words < <(sed -n 's/^Usage: vdcp [a-z]* \(\[OPTIONS\] \)*//p' <<<"$help" | tr -d '<>')
        case ${words[place]-} in
        LIST | '[LIST]' | CATALOGUE | SCRIPT | JOURNAL | CAPTURE | FILE) offers=files ;;
        COMMAND) offers='open close select cue cue-data play stop status active exists size' ;;
        *) offers='' ;;
        esac
    fi
    if [[ $offers == files ]]; then
        compopt -o filenames -o default 2>/dev/null
        mapfile -t COMPREPLY < <(compgen -P "$head" -f -- "$last")
    else
        mapfile -t COMPREPLY < <(compgen -P "$head" -W "$offers" -- "$last")
    fi
    COMPREPLY=("${COMPREPLY[@]#"$cut"}")
}

complete -F _vdcp vdcp
