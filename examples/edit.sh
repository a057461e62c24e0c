#!/bin/sh
# Edits decks of a library: takes their texts, opens an editor, makes the run, shows what it would do, and sends it if you say so.
#
#     edit.sh [--mode MODE] [--set SET] [-m MESSAGE] FILE SITE DECK..
#     edit.sh --list LIST [--mode MODE] [-m MESSAGE] FILE SITE DECK-OR-PATH..
#
# FILE is the library; no command may have it open. Each DECK is a file in the editor, VISUAL or EDITOR (vi unless one is set),
# which may not return before the files are closed: `gvim -f`, `code --wait`. The run is made against the text as it was taken:
# what others have sent meanwhile stays. Where a purge has taken cards of that text away, no run is made, since it would bring
# them back. It is shown with the warnings of `upd try-at`. If you say yes, it is sent as the next run of SITE, in MODE (quick
# unless it is given), and the reply is printed. Where others have changed the same lines meanwhile, it is not stored, and you are
# asked again. What needs more lines than a run has is sent as several, and you are asked again before the first. The run's set is
# SET, or SITE with the run's number, as LYON7; sets of several runs are named so anyway. UPD is the program (`upd` unless it is set).
#
#     -m MESSAGE    what the run is for, at most 77 bytes: its first line, as a comment. Asked for at a terminal.
#     --list LIST   edits the files of the tree, by their own names, as tree.sh writes them, and sends them as put.sh does: lines are
#                   made to fit, and LIST gets the notes. A DECK-OR-PATH is one of LIST. The tree of LIST stays as it is, and gets
#                   the edit by its next put.sh.
#
# Where an edit isn't sent, or no reply came, the texts stay in a folder, and standard error names it.
#
# Exit status:
#   0  the run is accepted
#   1  nothing was changed, or you said no, or the text or the run is refused; a refusal has used its number only if it was sent
#   2  the words can't be read
#   3  something else failed, as the editor, a command or the disk; the last words say where the texts are, and how to send the
#      run again if it may have arrived
set -u
export LC_ALL=C

for common in "$(dirname -- "$0")/common.sh" "$(dirname -- "$0")/upd-common"; do [ ! -r "$common" ] || break; done
. "$common" || exit 3

usage() {
    say "usage: ${0##*/} [--mode MODE] [--set SET] [--list LIST] [-m MESSAGE] FILE SITE DECK..; a site is 1 to 8 of A-Z and 0-9"
    exit 2
}

mode=quick set='' list='' message='' asked=''
while [ $# -gt 0 ]; do
    case $1 in
    --mode | --set | --list | -m)
        [ $# -gt 1 ] || usage
        case $1 in
        --mode) mode=$2 ;;
        --set) set=$2 ;;
        --list) list=$2 ;;
        -m) message=$2 asked=1 ;;
        esac
        shift
        ;;
    --)
        shift
        break
        ;;
    -*) usage ;;
    *) break ;;
    esac
    shift
done
[ $# -ge 3 ] || usage
[ -z "$list" ] || [ -z "$set" ] || usage
case $list in -* | [!/]*=*) list=./$list ;; esac # no option, and no assignment of awk
library=$1 site=$2 upd=${UPD:-upd} sent='' editor=${VISUAL:-${EDITOR:-vi}}
shift 2
check_words
again='the text has to be taken again'

make_work
runs=$work/runs

# Whether a text is not as it was taken.
is_edited() {
    if [ -d "$work/taken" ] && ! diff -r "$work/taken" "$work/tree" >/dev/null; then return; fi
    for taken in "$work"/*.taken; do
        [ ! -e "$taken" ] || cmp -s "$taken" "${taken%.taken}.txt" || return 0
    done
    return 1
}

# Only a reply that came lets edited texts go.
leave() {
    [ -z "$free" ] || rm -f "$free"
    if [ -z "$sent" ] && is_edited; then say "the texts are in $work"; else rm -rf "$work"; fi
}
trap leave EXIT
trap 'exit 3' HUP INT TERM

# Takes a deck's text as it was when the ident SINCE was the youngest.
take() {
    ask text-at -- "$library" "$1" "$since" >"$2.part" || {
        say "$1: $(cat "$work/faults")"
        exit 1
    }
    printf '%s\n' "$1" >"$2.deck" && cp "$2.part" "$2.txt" && mv "$2.part" "$2.taken" || exit 3
}

# Whether the library still gives a text as it was taken. Only a purge can change it.
is_current() {
    name=$(cat "${1%.txt}.deck") || exit 3
    if ask text-at -- "$library" "$name" "$since" >"$work/now" && cmp -s "$work/now" "${1%.txt}.taken"; then return; fi
    say "cards of $name were purged since its text was taken: edit it again, and put your changes in"
    return 1
}

# Makes the run of the set from the texts, each as of SINCE: one run, since no deck's corrections name another's cards.
correct() {
    rm -rf "$runs" && mkdir "$runs" && : >"$work/run" || exit 3
    from=1
    for text; do
        [ -f "$text" ] || {
            say "${text##*/} is gone"
            return 1
        }
        is_current "$text" || return 1
        ask correct-at -- "$library" "$set" "$since" <"$text" >"$work/part" || {
            if grep -q '^TooManyLines\|^RunLong' "$work/faults"; then
                cut_texts "$@"
                return
            fi
            cat "$work/faults" >&2
            say "${text##*/} is refused"
            return 1
        }
        tail -n +"$from" "$work/part" >>"$work/run" || exit 3
        if [ -s "$work/part" ]; then from=2; fi
    done
    if [ ! -s "$work/run" ]; then return; fi
    begin "$set" "$number" && cat "$work/run" >>"$run/run" || exit 3
    if [ "$(wc -l <"$run/run")" -le 2000 ] && [ "$(wc -c <"$run/run")" -le 65536 ]; then return; fi
    number=$first && rm -rf "$run" && cut_texts "$@"
}

cut_texts() {
    for text; do awk 1 <"$text"; done | cat >"$work/text" && cut_text "$library" "$work/text" || {
        cat "$work/faults" >&2
        say "the texts are refused"
        return 1
    }
}

# Makes the runs and shows them with what they would be answered. What can't be sent gives 1.
show() {
    ask_message
    next_number "$library"
    ask idents -- "$library" >"$work/idents" && cp "$work/idents" "$work/held" || exit 3
    if ! is_held "$since" "$serial"; then
        say "$since, the youngest ident when the text was taken, was purged: $again"
        exit 1
    fi
    if [ -n "$given" ]; then set=$given; else name_set 9 ''; fi
    first=$number
    correct "$@" || return 1
    if [ -z "$(ls "$runs")" ]; then
        say "nothing is changed"
        return 1
    fi
    look "$runs/$first" || exit 1
    if [ "$last" = "$first" ] && [ "$refused" -ne 0 ]; then
        cat "$runs/$first/run" "$work/reply" "$work/warnings" >&2
        return 1
    fi
    show_runs
    rm -f "$work/shown" && show_new "$work/warnings"
}

show_runs() {
    for part in $(ls "$runs" | sort -n); do cat "$runs/$part/run"; done
}

# Shows who switched the cards that conflicts name, and those beside, and asks. To edit again is possible before anything is sent.
over_changes() {
    for text in "$work"/*.deck; do show_switched "$(cat "$text")" "$(cat "$text")"; done
    if [ -z "$accepted" ]; then agreed "send it over these changes? yes, edit, or no: "; else agreed "send the rest over these changes? yes, or no: "; fi
    answered=$?
    return "$answered"
}

# Sends the runs. Returns where it is to be edited again.
send() {
    for each in $(ls "$runs" | sort -n); do
        send_run "$runs/$each"
        case $? in
        0)
            cat "$work/reply"
            continue
            ;;
        1) cat "$work/reply" ;;
        3) if [ "$answered" -eq 2 ]; then return; fi ;;
        4)
            say "no answer: the run may have arrived; send the same again:"
            say "$(quoted "$upd") run-at -- $(quoted "$library") $site $each $mode ${now% *} < $(quoted "$runs/$each/run")"
            exit 3
            ;;
        esac
        [ -z "$accepted" ] || say "the sets $accepted are accepted, and the rest is in $runs. To take them back, yank them"
        exit 1
    done
    sent=1
    exit 0
}

# Opens the editor on files. Its words are those of a shell.
open_editor() {
    trap : INT # it is for the editor
    sh -c "$editor \"\$@\"" "${editor%% *}" "$@"
    status=$?
    trap 'exit 3' INT
    if [ "$status" -ne 0 ]; then
        say "the editor failed"
        exit 3
    elif ! is_edited; then
        say "nothing is changed"
        exit 1
    fi
}

# The decks that are named, by deck or path, with their lines in LIST.
list_of() {
    [ -f "$list" ] || fail
    for name; do
        wanted=$name awk '
            function end() { if (deck == ENVIRON["wanted"] || path == ENVIRON["wanted"]) { printf "%s", lines; found = 1 } }
            $1 == "deck" { end(); deck = $2; path = lines = "" }
            $1 == "path" { path = path $2 }
            { lines = lines $0 "\n" }
            END { end(); exit !found }' "$list" || {
            say "$list has no deck or path $name"
            exit 1
        }
    done
}

# The notes in LIST of what is edited, which put.sh makes anew.
notes() {
    while IFS= read -r name; do list_of "$name"; done <"$work/names" | sed '/^since /d; /^sum /d'
}

# The lines of what was edited become those that put.sh has left, but for SINCE and sum, which are those of LIST's tree.
note_files() {
    export new="$work/list"
    # shellcheck disable=SC2016 # these words are of awk
    change_list '
        BEGIN {
            while ((getline line < ENVIRON["new"]) > 0) {
                split(line, word, " ")
                if (word[1] == "deck") deck = word[2]
                if (word[1] !~ /^(since|sum)$/) lines[deck] = lines[deck] line "\n"
            }
        }
        $1 == "deck" { on = $2 in lines; if (on) printf "%s", lines[$2] }
        !on || $1 == "since" || $1 == "sum"'
}

# Edits files of the tree, and sends them by put.sh.
edit_files() {
    put=$(script put) && tree=$(script tree) && list_of "$@" >"$work/list" || exit $?
    for name; do printf '%s\n' "$name"; done >"$work/names" && notes >"$work/notes" && list_of "$@" >"$work/list" || exit $?
    export UPD="$upd"
    sh "$tree" --list "$work/list" "$library" "$work/tree" && cp -Rp "$work/tree" "$work/taken" || exit $?
    set --
    set -f # a path is no pattern
    for path in $(awk '$1 == "deck" && path != "" { print path; path = "" } $1 == "path" { path = path $2 } END { print path }' "$work/list"); do
        set -- "$@" "$work/tree/$(printf '%b' "$path")"
    done
    set +f
    while :; do
        open_editor "$@"
        send_files "$@"
        status=$?
        [ "$status" -ne 0 ] || break
        exec 9>&- # nobody waits for an editor
        [ "$status" -eq 1 ] || exit "$status"
        agreed "edit again? edit, or no: "
        [ $? -eq 2 ] || exit 1
    done
    sent=1
    exit 0
}

# Sends the files as they are, with the status of put.sh, and notes in LIST what is accepted.
send_files() {
    for file; do
        [ -f "$file" ] || {
            say "${file#"$work/tree/"} is gone"
            return 1
        }
    done
    ask_message
    lock_list
    notes >"$work/noted" || exit 3
    if ! cmp -s "$work/notes" "$work/noted"; then
        say "$list has other notes of these files now: start again, and put your changes in"
        exit 3
    fi
    sh "$put" --mode "$mode" -m "$message" -- "$library" "$site" "$work/list" "$work/tree"
    status=$?
    [ "$status" -gt 1 ] || note_files
    notes >"$work/notes" || exit 3
    return "$status"
}

if [ -n "$list" ]; then edit_files "$@"; fi
given=$set count=0
since=$(youngest "$library") || exit 3
serial=${since#* } since=${since% *}
[ -n "$since" ] || {
    say "the library has no decks"
    exit 1
}
for deck; do
    count=$((count + 1))
    if grep -qsxF -e "$deck" "$work/decks"; then
        say "$deck is named twice"
        exit 2
    fi
    printf '%s\n' "$deck" >>"$work/decks" || exit 3
    # The name of a deck's file begins with its place: other bytes of a deck's name than these are written alike.
    take "$deck" "$work/$count-$(printf %s "$deck" | tr -c 'A-Z0-9+=-' _)"
done
set -- "$work"/*.txt # and no file that the editor leaves beside them

while :; do
    open_editor "$@"
    question="edit again? edit, or no: "
    if show "$@"; then
        question="send it as $names of $site? yes, edit, or no: "
    fi
    agreed "$question"
    case $? in
    0) send ;;
    1) exit 1 ;;
    esac
done
