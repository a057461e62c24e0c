# bash completion of upd, and of its scripts upd-bring, upd-tree, upd-edit and upd-put
_upd() {
    local word=${COMP_WORDS[COMP_CWORD]} command=${COMP_WORDS[1]} words=
    local commands="trial init run settle spool serve serve-local compile list history blame show idents yanks page text text-at correct correct-at correct-parts try try-at run-at source runs sites backup compact examine replay migrate explain help"
    COMPREPLY=()
    case $COMP_CWORD,$command in
        1,*) words="$commands --help --version" ;;
        2,help) words=$commands ;;
        2,trial | 5,run | 5,run-at | 6,correct-parts | 3,try | 3,try-at) words="full quick normal --help" ;;
        2,explain) words="RunLong TooManyLines BadByte LineLong BadName BadCard BadField NoIdent TextNowhere NameTaken IdentUnknown DeckUnknown CardUnknown RangeOrder DeckCard YankText YankSelf Reserved Full CallUnknown CallDepth CompileLong BadSite BadNumber BadMode RunChanged Settled NoMemory Store BadFrame CutFrame Read Write --help" ;;
        2,* | 3,serve-local | 3,backup | 3,compact) compopt -o filenames 2> /dev/null; mapfile -t COMPREPLY < <(compgen -f -- "$word"; compgen -W --help -- "$word"); return ;;
    esac
    mapfile -t COMPREPLY < <(compgen -W "$words" -- "$word")
}
complete -F _upd upd

_upd_script() {
    local word=${COMP_WORDS[COMP_CWORD]} options="" place=1 at
    case ${COMP_WORDS[0]##*/} in
        upd-bring) options="--c --skip --list -m" ;;
        upd-tree) options="--list" ;;
        upd-edit) options="--mode --set --list -m" ;;
        upd-put) options="--c --gone --yes --mode -m" ;;
    esac
    for ((at = 1; at < COMP_CWORD; at++)); do
        case ${COMP_WORDS[at]} in --list | --mode | --set | -m) ((at++)) ;; -*) ;; *) ((place++)) ;; esac
    done
    COMPREPLY=()
    case ${COMP_WORDS[COMP_CWORD - 1]},$word,$place in
        --mode,*) mapfile -t COMPREPLY < <(compgen -W "full quick normal" -- "$word") ;;
        --set,* | -m,*) ;;
        --list,* | *,[!-]*,1 | *,,1) compopt -o filenames 2> /dev/null; mapfile -t COMPREPLY < <(compgen -f -- "$word") ;;
        *,-*,1) mapfile -t COMPREPLY < <(compgen -W "$options" -- "$word") ;;
        *,[!-]*,* | *,,*)
            [ "${COMP_WORDS[0]##*/}" != upd-put ] || [ "$place" -lt 3 ] || { compopt -o filenames 2> /dev/null; mapfile -t COMPREPLY < <(compgen -f -- "$word"); } ;;
    esac
}
complete -F _upd_script upd-bring upd-tree upd-edit upd-put
