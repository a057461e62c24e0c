#!/bin/sh
# Brings what was changed in a tree of source files into a library, and notes it in LIST.
#
#     put.sh [--c] [--gone] [--yes] [--mode MODE] [-m MESSAGE] FILE SITE LIST FOLDER [NEW..]
#
# LIST and FOLDER are as bring.sh or `tree.sh --list` made them. Each file of LIST that is not as the library has it is corrected
# in its deck, against the deck as it was when LIST was noted: so what others have sent meanwhile stays. It then comes into FOLDER,
# too. After a purge of cards that the file was made from, or of the ident that LIST notes, a file that you changed has to be made
# again, by `tree.sh --list`, and your changes in it. A file stays as it is where its deck is purged or out of use, and where the
# library has never had what LIST notes: a run of bring.sh was refused, or the library is a copy of before. What no card has, as
# blanks at the end of lines, line ends and rights, goes into LIST only. So let FOLDER be a tree of yours, or a release whose decks
# nobody else corrects. NEW are files of FOLDER that become decks, by bring.sh: their paths from there, or from here. FILE is the
# library; no command may have it open. The runs are the next ones of SITE, and their sets are named by SITE and the run's number, as
# LYON7, or a greater one where that name is in use. A file that needs more lines than a run has is corrected by several, as the runs
# 7 and 8 by LYON71 and LYON72. UPD is the program (`upd` unless it is set).
#
# What each run corrects is shown before you are asked. A run is sent by `upd run-at`: where others have changed the same lines
# meanwhile it is not stored, and you are asked again; of several runs for a file before the first of them is sent. What you save
# while put.sh works stays in the file for the next time. Where others have changed that file too, PATH.upd beside it gets what the
# library has, or PATH.upd.upd where LIST has PATH.upd: put.sh asks you to put both together before it goes on with that file.
#
#     --c           all files are made to fit as by bring.sh, also where LIST doesn't say so yet
#     --gone        takes the decks out of use whose files are gone from FOLDER, or are folders now, and removes them from LIST,
#                   but for what others have changed meanwhile. What they send in the moment between the last look and the run is
#                   seen once that is accepted: the deck is named, stays in LIST, and comes back by a yank of the run's set
#     --yes         sends the runs without asking, but where others have changed the same lines
#     --mode MODE   the mode of the runs: full, normal, or quick, which it is else
#     -m MESSAGE    what the runs are for, at most 77 bytes: their first line, as a comment. Asked for at a terminal.
#
# LIST has each deck and each path once. Where you add lines of another's LIST that has the same path, first rename one of the
# files, and its `path` lines. One put.sh at a time works with LIST, for which LIST.lock is there, by flock. While it sends,
# LIST.put has the runs. After a kill, or where no answer came, start it again: it sends the same runs first. Where a file needs
# several runs, and only the first are accepted, LIST.put stays: start it again to send the rest. Where one was refused, or you
# don't want them, yank the sets before it, which are named, and then remove LIST.put.
#
# Exit status:
#   0  all runs are accepted, or nothing was changed
#   1  a run was refused, or not sent as you said no or of a purge, or a file can't be read or a line of it be a card, or a file has
#      to stay as it is, or LIST has a deck or a path twice: each is named. What was accepted is in the library and in LIST, or, of
#      a file that needs several runs, in LIST.put
#   2  the words can't be read
#   3  something else failed, as a command or the disk
set -u
export LC_ALL=C

for common in "$(dirname -- "$0")/common.sh" "$(dirname -- "$0")/upd-common"; do [ ! -r "$common" ] || break; done
. "$common" || exit 3

usage() {
    say "usage: ${0##*/} [--c] [--gone] [--yes] [--mode MODE] [-m MESSAGE] FILE SITE LIST FOLDER [NEW..]; a site is 1 to 8 of A-Z and 0-9"
    exit 2
}

c='' gone='' yes='' mode=quick message='' asked=''
while [ $# -gt 0 ]; do
    case $1 in
    --c) c=--c ;;
    --gone) gone=1 ;;
    --yes) yes=1 ;;
    --mode | -m)
        [ $# -gt 1 ] || usage
        if [ "$1" = -m ]; then message=$2 asked=1; else mode=$2; fi
        shift
        ;;
    --)
        shift
        break
        ;;
    -*) usage ;;
    *) break ;;
    esac
    shift
done
[ $# -ge 4 ] || usage
library=$1 site=$2 list=$3 folder=$4 upd=${UPD:-upd} result=0
shift 4
case $folder in -*) folder=./$folder ;; esac
case $list in -* | [!/]*=*) list=./$list ;; esac # no option, and no assignment of awk
check_words
again="make the tree again, by tree.sh --list $list .., and your changes in it"

bring=$(script bring) && tree=$(script tree) && cards=$(script cards) || exit 3
if [ ! -f "$list" ] || [ ! -d "$folder" ]; then
    say "$list or $folder is not there"
    exit 3
fi
put=$list.put runs=$list.put asked=$asked$yes
make_work
trap 'rm -rf "$work" ${free:+"$free"}' EXIT
trap 'exit 3' HUP INT TERM
export TMPDIR="${work%/*}" # bring.sh works in FOLDER
case $upd in /*) ;; */*) upd=$(pwd)/$upd ;; esac # bring.sh works in FOLDER
export UPD="$upd"

# The lines of a deck in LIST.
section() {
    deck=$1 awk '$1 == "deck" { on = $2 == ENVIRON["deck"] } on' "$list"
}

# Replaces the lines of a deck in LIST by those of a file, or removes them.
replace_section() {
    export named="$1" with="$2"
    # shellcheck disable=SC2016 # these words are of awk
    change_list '
        $1 == "deck" { on = $2 == ENVIRON["named"]; if (on) while ((getline line < ENVIRON["with"]) > 0) print line }
        !on'
}

# Notes a SINCE for the decks that a file names.
note_since() {
    export decks="$1"
    # shellcheck disable=SC2016 # these words are of awk
    change_list -v since="$2" '
        BEGIN { while ((getline deck < ENVIRON["decks"]) > 0) listed[deck] }
        $1 == "deck" { on = $2 in listed }
        !(on && $1 == "since")
        on && $1 == "deck" { print "since " since }'
}

# Notes SINCE and sum for the decks of work/same: those of the tree that is written from the library.
note_same() {
    export decks="$work/same" noted_list="$work/now"
    # shellcheck disable=SC2016 # these words are of awk
    change_list '
        BEGIN {
            while ((getline deck < ENVIRON["decks"]) > 0) listed[deck]
            while ((getline line < ENVIRON["noted_list"]) > 0) {
                split(line, word, " ")
                if (word[1] == "deck") deck = word[2]
                if (word[1] ~ /^(since|sum)$/) noted[deck] = noted[deck] line "\n"
            }
        }
        $1 == "deck" { on = $2 in listed }
        !(on && $1 ~ /^(since|sum)$/)
        on && $1 == "deck" { printf "%s", noted[$2] }'
}

# What LIST notes as the sum of lines.
sum_of() {
    cksum | tr ' ' :
}

# The lines of a deck in LIST once its cards are those of a file: SECTION LISTING HUNKS NOTES, where HUNKS are the differences of the
# active cards and the file's. A new set, or one whose cards have new notes, gets numbers after all others. Notes of cards that the
# file doesn't have stay.
new_section() {
    awk -v deck="$1" -v since="$2" -v sets="$3" -v mode="$4" '
        function put_note(kind, item) {
            if (length(line_of[kind]) + length(item) > 79) { print line_of[kind]; line_of[kind] = "" }
            line_of[kind] = (line_of[kind] == "" ? kind : line_of[kind]) " " item
        }
        function put_join(number, after) {
            if (!(number in is_placed && after in is_placed)) put_note("join", number ":" after)
        }
        function number_of(at) {
            return owner[at] == deck ? card[at] - 1 : owner[at] in start ? start[owner[at]] + card[at] - 1 : 0
        }
        function begin_set(set,    at) {
            if (set == deck || set in start) return
            start[set] = most + 1
            for (at = 1; at <= cards; at++) if (owner[at] == set && number_of(at) > most) most = number_of(at)
            head[++heads] = "part " set " " start[set]
        }
        BEGIN { for (size = split(sets, item, " "); size > 0; size--) is_new[item[size]] }
        part == "section" && $1 ~ /^(deck|path|fit)$/ { head[++heads] = $0; next }
        part == "section" && $1 == "part" { start[$2] = $3; head[++heads] = $0; next }
        part == "section" && $1 ~ /^(blanks|feed|indent|cut|join|byte)$/ { old[++olds] = $0; next }
        part == "section" && $1 == "cr" && $2 != "all" { old[++olds] = $0; next }
        part == "section" { next }
        part == "listing" && FNR > 1 {
            split($2, item, ".")
            if (item[1] == deck && item[2] == 1) next
            owner[++cards] = item[1]; card[cards] = item[2]
            if ($1 == "A") active[++actives] = cards
        }
        part == "hunks" && /^@@ / {
            split($2, a, ","); split($3, b, ",")
            from = -a[1]; if (a[2] == "") a[2] = 1
            to = substr(b[1], 2) + 0; if (b[2] == "") b[2] = 1
            if (a[2] == 0) from++
            if (b[2] == 0) to++
            while (ours < to - 1) place[++ours] = ++theirs
            ours = to + b[2] - 1; theirs = from + a[2] - 1
        }
        part == "notes" { new[++news] = $0 }
        END {
            while (theirs < actives) place[++ours] = ++theirs
            for (at = 1; at <= cards; at++) if (number_of(at) > most) most = number_of(at)
            for (at = 1; at <= cards; at++) if (owner[at] in is_new) begin_set(owner[at])
            for (i = 1; i <= news; i++) {
                size = split(new[i], item, " ")
                for (n = item[1] == "bytes" ? size + 1 : 2; n <= size; n++) {
                    split(item[n], a, ":")
                    for (k = item[1] == "cut" ? a[2] - 1 : 0; k >= 0; k--) if (a[1] + k in place) begin_set(owner[active[place[a[1] + k]]])
                }
            }
            for (at in place) is_placed[number_of(active[place[at]])]
            print head[1]; print "since " since; if (mode != "644") print "mode " mode
            for (i = 2; i <= heads; i++) print head[i]
            for (i = 1; i <= olds; i++) {
                size = split(old[i], item, " ")
                for (n = 2; n <= size; n++) {
                    split(item[n], a, ":")
                    if (item[1] == "join") put_join(a[1], a[2])
                    else if (item[1] != "cut") { if (!(a[1] in is_placed)) put_note(item[1], item[n]) }
                    else for (k = a[1]; k < a[1] + a[2] - 1; k++) put_join(k, k + 1)
                }
            }
            for (i = 1; i <= news; i++) {
                size = split(new[i], item, " ")
                for (n = 2; n <= size; n++) {
                    split(item[n], a, ":")
                    if (item[1] == "bytes" || item[n] == "all") { put_note(item[1], item[n]); continue }
                    if (!(a[1] in place) || !(number = number_of(active[place[a[1]]]))) continue
                    if (item[1] != "cut") put_note(item[1], number (a[2] == "" ? "" : ":" a[2]))
                    else for (k = 1; k < a[2]; k++) {
                        after = a[1] + k in place ? number_of(active[place[a[1] + k]]) : 0
                        if (after) put_note("join", number ":" after)
                        number = after
                    }
                }
            }
            size = split("bytes byte feed blanks indent cut join cr open", item, " ")
            for (i = 1; i <= size; i++) if (line_of[item[i]] != "") print line_of[item[i]]
        }' part=section "$5" part=listing "$6" part=hunks "$7" part=notes "$8"
}

# A new file's path in FOLDER, from where it is given, or else from here. 1 where FOLDER doesn't have it.
inner_path() {
    place=$folder/$1
    case /$1/ in
    //*) place=$1 ;;
    */../*) ;;
    *)
        if [ -e "$place" ]; then
            printf '%s\n' "$1"
            return
        fi
        ;;
    esac
    [ -e "$place" ] || place=$1
    top=$(cd -- "$folder" && pwd -P) || exit 3
    if [ -e "$place" ]; then place=$(cd -- "$(dirname -- "$place")" && pwd -P)/${place##*/}; fi
    case $place in
    "$top"/*) printf '%s\n' "${place#"$top"/}" ;;
    *)
        say "$1 is not in $folder"
        return 1
        ;;
    esac
}

# Writes a file of FOLDER. Before it has its place it is complete, with the rights of what is there. 1 where that isn't the file of the
# third path, if one is given.
write_file() {
    file=$folder/$1
    [ ! -L "$file" ] || file=$(readlink -f "$file") || exit 3
    free_name "${file%/*}/.upd.part" .part
    if cat "$2" >"$free" && { [ ! -e "$file" ] || chmod "$(mode_of "$file")" "$free"; }; then
        if [ $# -gt 2 ] && ! cmp -s "$3" "$file"; then
            rm -f "$free"
            free=''
            return 1
        fi
        if mv -f "$free" "$file"; then
            free=''
            return
        fi
    fi
    rm -f "$free"
    say "$1 can't be written, and is as it was. Once it can be, start it again"
    exit 3
}

# The path beside a file for what the library has: one that LIST doesn't have.
name_aside() {
    aside=$1.upd
    while [ -s "$work/asides" ] && grep -qxF -e "$aside" "$work/asides"; do aside=$aside.upd; done
}

# Brings what the library has into FOLDER, where the file is still that of the second path. Where that has it, others sent nothing.
refresh() {
    if cmp -s "$3" "$folder/$1" || cmp -s "$2" "$3"; then return; fi
    if write_file "$1" "$3" "$2"; then
        say "$1 has now what others have sent, too"
    else
        name_aside "$1"
        write_file "$aside" "$3"
        say "$1 was changed meanwhile: what the library has is in $aside"
        result=1
    fi
}

# Whether a deck, in a copy of the library and as of an ident, has the lines that LIST notes, if it notes any.
is_as_noted() {
    noted_sum=$(list_decks | deck=$2 awk '$1 == ENVIRON["deck"] { print $5 }')
    case $noted_sum in '' | -) return ;; esac
    ask text-at -- "$1" "$2" "$3" >"$work/base" && [ "$(sed 1d "$work/base" | sum_of)" = "$noted_sum" ]
}

# Whether the library has had what LIST notes of a deck: its lines as of SINCE, or SINCE itself, and then cards were purged. Else the
# file stays as it is: nothing else may have its text.
has_had() {
    if is_held "$since" "$serial" && is_as_noted "$copy" "$deck" "$since"; then return; fi
    if name=$since serial=$serial awk '$2 == ENVIRON["name"] && $1 == ENVIRON["serial"] { found = 1 } END { exit !found }' "$work/held"; then return; fi
    say "$path stays as it is, since the library never had it as LIST notes. Its deck $deck may be another file's, or $library a copy of before"
    printf '%s\n' "$deck" >>"$work/stays"
    result=1
    return 1
}

# No run takes a deck out of use that others have changed: a *YANKDECK meets nothing.
may_send() {
    for item in "$1"/*.deck; do
        if [ ! -e "$item" ] || [ -e "${item%.deck}.file" ]; then continue; fi
        deck=$(cat "$item")
        is_as_noted "$work/seen" "$deck" "${now% *}" || {
            say "$(printf '%b' "$(cat "${item%.deck}.path")"): its deck $deck was changed by others. Run ${1##*/} is not sent"
            return 1
        }
    done
}

# Notes in LIST what an accepted run, in a folder of LIST.put, has corrected.
note_run() {
    rm -rf "$work/after" "$work/after-wal" && "$upd" backup -- "$library" "$work/after" || exit 3
    now=$(youngest "$work/after") || exit 3
    for item in "$1"/*.deck; do
        [ -e "$item" ] || continue
        deck=$(cat "$item") item=${item%.deck}
        path=$(printf '%b' "$(cat "$item.path")")
        if [ -e "$item.file" ]; then note_file "$1"; else note_gone "$1"; fi
    done
    mv -- "$1" "$1.noted" && rm -rf "$1.noted"
}

# What came between the look at a deck and the run that takes it out of use is seen by the ident before the run's.
note_gone() {
    set=$(sed -n 's/^\*IDENT //p' "$1/run")
    before=$(set=$set awk '
        $NF == "purged" { next }
        $2 == ENVIRON["set"] { print before; exit }
        { before = $2 }' "$work/idents")
    if [ -z "$before" ] || is_as_noted "$work/after" "$deck" "$before"; then
        replace_section "$deck" /dev/null
    else
        say "$path: its deck $deck was changed by others just before $set took it out of use. A run with *YANK $set brings it back"
        result=1
    fi
}

# Notes the file of an item, as the library has it now. A deck can be out of use by now, or purged.
note_file() {
    { section "$deck" | sed '/^fit /d' && if [ -s "$item.fit" ]; then echo 'fit c'; fi; } >"$work/section" || exit 3
    ask list -- "$work/after" "$deck" >"$work/listing" || : >"$work/listing" || exit 3
    if ! grep -q '^A ' "$work/listing"; then
        say "$path stays as it is, since its deck $deck is purged or out of use"
        result=1
        return
    fi
    sed -n '1!s/^A [^ ]* //p' "$work/listing" | sed 1d >"$work/active"
    diff -U 0 "$work/active" "$item.cards" >"$work/hunks"
    new_section "$deck" "$now" "$(cat "$1/sets")" "$(cat "$item.mode")" \
        "$work/section" "$work/listing" "$work/hunks" "$item.notes" >"$work/new" || exit 3
    rm -rf "$work/out"
    sh "$tree" "$work/after" "$work/out" <"$work/new" || exit 3
    {
        sed 2q "$work/new"
        printf 'sum %s %s\n' "$(cksum <"$work/active")" "$(cksum <"$work/out/$path")"
        sed 1,2d "$work/new"
    } >"$work/section" && replace_section "$deck" "$work/section"
    refresh "$path" "$item.file" "$work/out/$path"
}

over_changes() {
    for item in "$put/$last"/*.deck; do
        show_switched "$(cat "$item")" "$(printf '%b' "$(cat "${item%.deck}.path")")"
    done
    agreed "send $names over these changes? yes, show or no: "
}

# Sends a run, in a folder of LIST.put, and notes it. Where others of its edit are accepted and it isn't, LIST.put has to stay: without
# it they would be sent again.
send() {
    send_run "$1"
    status=$?
    case $status in
    0)
        say "run $number of $site is accepted"
        sed -n 's/^\*IDENT //p' "$1/run" >>"$work/ours"
        note_run "$1"
        return
        ;;
    1) cat "$work/reply" >&2 ;;
    3)
        if [ -z "$accepted" ]; then
            say "run $number of $site is not sent. Say yes next time, and the files get both changes; or first undo yours of these lines,"
            say "start it again, which brings in theirs, and make yours anew"
        fi
        ;;
    4)
        say "run $number of $site has no answer: start it again"
        exit 3
        ;;
    esac
    if [ -z "$accepted" ]; then
        rm -rf "$put"
    else
        say "run $number of $site is not accepted, but the sets before it are: $accepted"
        [ "$status" -ne 3 ] || say "start it again to send the rest, or take them back:"
        say "send a run with *IDENT and *YANK $accepted, then remove $put, and start it again"
    fi
    exit 1
}

# The lines in LIST of the new decks whose runs are all accepted, as of the last of these.
accepted_decks() {
    sed -n 's/^.*"idents":\["\([^"]*\)"\].*"state":"accepted"}$/\1/p' "$work/answers" >"$work/begun" && begun=$work/begun awk '
        BEGIN { while ((getline name < ENVIRON["begun"]) > 0) is_accepted[last = name] }
        function end() { if (is_whole) printf "%s", lines; lines = "" }
        $1 == "deck" { end(); is_whole = 1 }
        $1 ~ /^(deck|part)$/ && !($2 in is_accepted) { is_whole = 0 }
        { lines = lines ($1 == "since" ? "since " last : $0) "\n" }
        END { end() }' "$put/list"
}

# Sends all that LIST.put has, first the new files. As what it is sent is there too.
send_all() {
    asked_site=$site asked_mode=$mode
    read -r site mode <"$put/ready" || exit 3
    if [ -e "$put/spool" ]; then
        ask spool -- "$library" <"$put/spool" >"$work/answers" || exit 3
        accepted_decks >"$work/accepted" || exit 3
        sed -n -e 's/^deck //p' -e 's/^part \([^ ]*\) .*/\1/p' "$work/accepted" >>"$work/ours"
        if [ -s "$work/accepted" ] && ! grep -qxF -e "$(sed 1q "$work/accepted")" "$list"; then change_list 1 - "$work/accepted"; fi
        if grep -v '"state":"accepted"}$' "$work/answers" >&2; then
            rm -rf "$put"
            exit 1
        fi
        rm -f "$put/spool"
    fi
    for each in $(ls "$put" | grep '^[1-9][0-9]*$' | sort -n); do send "$put/$each"; done
    rm -rf "$put"
    site=$asked_site mode=$asked_mode
}

lock_list
check_list || exit 1
grep '\.upd$' "$work/paths" >"$work/asides"
if [ -e "$put/ready" ]; then
    say "the runs of $put are sent again"
    send_all
fi

# What is there else was killed before it sent.
rm -rf "$put" && mkdir -- "$put" || exit 3
trap 'rm -rf "$work" ${free:+"$free"}; [ -e "$put/ready" ] || rm -rf "$put"' EXIT
ask_message

# The library as it is now, from which all is made, and its tree.
copy=$work/copy
ask backup -- "$library" "$copy" && ask init "$work/empty" && start=$(youngest "$copy") && list_decks >"$work/decks" || exit 3
next_number "$copy"
cp "$work/idents" "$work/held" && cp "$work/idents" "$work/before" && cp "$list" "$work/now" || exit 3
sh "$tree" --list "$work/now" "$copy" "$work/tree" || [ $? -eq 1 ] || exit 3
run='' unfit=0 deck_count=0

# Puts a deck's lines into the run that is made, or into the next one: a run is as of one ident, and else would meet earlier runs of
# this script. The deck's cards, notes and file are kept with the run.
add_deck() {
    if [ -n "$run" ] && [ "$(cat "$run/since")" != "$since $serial" ]; then run=''; fi
    [ -n "$run" ] || name_set 9 ''
    correct_deck || return
    if [ -n "$run" ] && [ "$(cat "$run/run" "$work/part" | wc -l)" -gt 1999 ] || [ "$(cat ${run:+"$run/run"} "$work/part" | wc -c)" -gt 65400 ]; then
        run=''
        name_set 9 ''
        correct_deck || return
    fi
    if [ -z "$run" ]; then
        begin "$set" "$number"
        cat "$work/part" >>"$run/run" || exit 3
    else
        tail -n +2 "$work/part" >>"$run/run" || exit 3
    fi
    keep_deck
    lines=$(($(wc -l <"$work/part") - 1))
    say "$path, the deck $deck: $lines line$([ "$lines" -eq 1 ] || echo s) of run ${run##*/}"
}

# The lines that correct a deck, by the set. A deck that needs several runs gets them.
correct_deck() {
    if ask correct-at -- "$copy" "$set" "$since" <"$work/text" >"$work/part"; then
        if [ -s "$work/part" ]; then return; fi
        keep_noted
        return 1
    fi
    first=$number
    if grep -q '^TooManyLines\|^RunLong' "$work/faults" && cut_text "$copy" "$work/text"; then
        keep_deck
        say "$path, the deck $deck: runs $first to $last"
        run=''
    else
        cat "$work/faults" >&2
        say "$path, the deck $deck, is refused"
        unfit=1
    fi
    return 1
}

# Keeps a file whose cards are those that it was made from, but not its line ends or rights, say.
keep_noted() {
    kept=$run run=$work/noted
    keep_deck
    run=$kept
}

# Whether a file has the rights that LIST notes, or those that the umask left of them.
has_noted_rights() {
    rights=$(mode_of "$folder/$path")
    [ "$rights" = "$noted" ] || [ "$rights" = "$(mode_of "$work/tree/$path")" ]
}

# Whether a path of FOLDER can be looked at: the folders that it leads through can be searched, as far as they are there.
is_searched() {
    above=$folder/$1
    while [ ! -e "$above" ] && [ "$above" != "$folder" ]; do above=${above%/*}; done
    [ ! -d "$above" ] || [ -x "$above" ]
}

# A file that is gone, or became a folder. What others have done to its deck since has to be seen before that goes out of use.
take_out() {
    is=gone
    if [ -e "$folder/$path" ]; then is='not a file now'; fi
    if ! is_searched "$path"; then
        say "$path can't be looked at, as its folder can't be searched"
        unfit=1
    elif [ -z "$gone" ] && [ "$is" = gone ]; then
        say "$path is gone"
    elif [ -z "$gone" ]; then
        say "$path is $is: --gone takes its deck $deck out of use"
        unfit=1
    elif ask text -- "$copy" "$deck" >"$work/base" && [ "$(sed 1d "$work/base" | sum_of)" = "$sum" ]; then
        printf '%s %s\n' "$deck" "$code" >>"$work/gone"
        say "$path is $is: its deck $deck goes out of use"
    else
        say "$path is $is, but its deck $deck was changed by others, or LIST doesn't show: $again"
        if [ "$is" = gone ]; then result=1; else unfit=1; fi # NEW may be in that folder
    fi
}

# Keeps with the run what LIST needs once it is accepted.
keep_deck() {
    deck_count=$((deck_count + 1))
    item=$run/$deck_count
    if has_noted_rights; then rights=$noted; fi
    cp "$work/mine" "$item.file" && cp "$work/cards" "$item.cards" && cp "$work/notes" "$item.notes" && printf '%s\n' "$rights" >"$item.mode" \
        && printf '%s' "${c:-$fit}" >"$item.fit" && printf '%s\n' "$code" >"$item.path" && printf '%s\n' "$deck" >"$item.deck" || exit 3
}

: >"$work/same" && : >"$work/gone" && : >"$work/unlisted" && : >"$work/stays" && : >"$work/ours" && : >"$work/others" || exit 3
mkdir "$work/was" "$work/noted" && : >"$work/noted/sets" && awk '
    NR == FNR { if ($NF != "purged") serial[$2] = $1; next }
    { print serial[$3] + 0, FNR, $0 }' "$work/held" "$work/decks" | sort -k 1,1n -k 2,2n | cut -d ' ' -f 3- >"$work/order" || exit 3
if [ $# -gt 0 ]; then
    case $bring in /*) ;; *) bring=$(pwd)/$bring ;; esac
    awk 1 <"$list" >"$work/list" && known=$(($(wc -l <"$work/list"))) || exit 3
    for new; do inner_path "$new" || unfit=1; done >"$work/names"
    [ "$unfit" -eq 0 ] || exit 1
    grep '\.upd$' "$work/names" >>"$work/asides"
    # shellcheck disable=SC2086 # $c is an option or nothing
    (cd "$folder" && sh "$bring" $c ${message:+-m "$message"} --list "$work/list" "$copy" "$site" "$number" <"$work/names" >"$work/spool") || exit $?
    tail -n +$((known + 1)) "$work/list" >"$put/list" && cp "$work/spool" "$put/spool" || exit 3
    number=$((number + $(grep -c "^RUN $site [0-9]* quick [0-9]*\$" "$work/spool")))
    sed -n -e 's/^deck //p' -e 's/^part \([^ ]*\) .*/0 \1/p' "$put/list" | sed 's/.*/0 & set held/' >>"$work/held"
fi
while read -r deck code since serial sum file_sum noted fit <&3; do
    path=$(printf '%b' "$code")
    name_aside "$path"
    if [ -e "$folder/$aside" ]; then
        say "$aside is there: put what it has into $path, and remove it"
        unfit=1
        continue
    elif [ ! -e "$work/tree/$path" ]; then
        if [ -n "$gone" ] && [ ! -f "$folder/$path" ] && is_searched "$path"; then
            printf '%s\n' "$deck" >>"$work/unlisted"
            continue
        fi
        say "$path stays as it is, since its deck $deck is purged or out of use. Remove it, and LIST forgets it by --gone"
        printf '%s\n' "$deck" >>"$work/stays"
        result=1
        continue
    elif [ ! -f "$folder/$path" ]; then
        take_out
        continue
    elif cmp -s "$folder/$path" "$work/tree/$path" && has_noted_rights; then
        printf '%s\n' "$deck" >>"$work/same"
        continue
    elif ! cat "$folder/$path" >"$work/mine"; then # all is made from this copy: so what is saved later is seen
        say "$path can't be read, or $work is full"
        unfit=1
        continue
    elif [ "$(sum_of <"$work/mine")" = "$file_sum" ] && has_noted_rights; then
        has_had || continue
        deck_count=$((deck_count + 1))
        cp "$work/mine" "$work/was/$deck_count" && printf '%s %s %s\n' "$deck" "$code" "$deck_count" >>"$work/others" || exit 3
        continue
    elif [ "$since" = - ]; then
        say "LIST doesn't note as of which ident $path is: make the tree by tree.sh --list"
        unfit=1
        continue
    fi
    sh "$cards" ${c:-$fit} --cr "$work/empty" "$work/mine" "$work/notes" >"$work/cards" 2>"$work/faults"
    status=$?
    mine=$work/mine file=$folder/$path awk '
        index($0, ENVIRON["mine"] ":") == 1 { $0 = ENVIRON["file"] substr($0, length(ENVIRON["mine"]) + 1) }
        { print }' "$work/faults" >&2
    case $status in
    0) ;;
    1)
        unfit=1
        continue
        ;;
    *) exit 3 ;;
    esac
    if [ "$(sum_of <"$work/cards")" = "$sum" ]; then
        if has_had; then keep_noted; fi
        continue
    elif ! is_held "$since" "$serial"; then
        say "$path is not as the library has it, and $since was purged or never came, the last ident that it has seen: $again"
        unfit=1
        continue
    fi
    ask text-at -- "$copy" "$deck" "$since" >"$work/base" && { sed 1q "$work/base" && cat "$work/cards"; } >"$work/text" || exit 3
    if [ "$sum" != - ] && [ "$(sed 1d "$work/base" | sum_of)" != "$sum" ]; then
        say "$path is not as the library has it, and cards of its deck $deck were purged, or it is another one: $again"
        unfit=1
        continue
    fi
    add_deck
done 3<"$work/order"
[ "$unfit" -eq 0 ] || exit 1
if [ -s "$work/gone" ]; then
    name_set 9 ''
    since=${start% *} serial=${start#* }
    begin "$set" "$number"
    { printf '*IDENT %s\n' "$set" && sed 's/^\([^ ]*\) .*/*YANKDECK \1/' "$work/gone"; } >>"$run/run" || exit 3
    while read -r deck code; do
        deck_count=$((deck_count + 1))
        printf '%s\n' "$deck" >"$run/$deck_count.deck" && printf '%s\n' "$code" >"$run/$deck_count.path" || exit 3
    done <"$work/gone"
fi
if [ -n "$(ls "$put")" ]; then
    part=$(ls "$put" | grep '^[1-9][0-9]*$' | sort -n | head -n 1)
    while [ -e "$put/$part/run" ] && look "$put/$part"; do show_new "$work/warnings"; done # of an edit; part is then the next one's first run
    if [ -z "$yes" ] && ! agreed "send these runs? yes, show or no: "; then exit 1; fi
    printf '%s %s\n' "$site" "$mode" >"$put/readied" && mv "$put/readied" "$put/ready" || exit 3
    send_all
fi
rm -rf "$put"

# Decks that only others have changed come into FOLDER. LIST alone has blanks at the end of lines, line ends and rights.
while read -r deck code count; do
    path=$(printf '%b' "$code")
    refresh "$path" "$work/was/$count" "$work/tree/$path"
    printf '%s\n' "$deck" >>"$work/same"
done <"$work/others"
note_same
[ "$(ls "$work/noted")" = sets ] || note_run "$work/noted"
while read -r deck; do replace_section "$deck" /dev/null; done <"$work/unlisted"

# Where nobody else has sent anything meanwhile, each file is now as of the youngest ident.
now=$(youngest "$library") || exit 3
if awk '
    FILENAME == ARGV[1] { ours[$1]; next }
    FILENAME == ARGV[2] { was[FNR] = $0; next }
    FNR in was ? $0 != was[FNR] : !($2 in ours) { other = 1 }
    END { exit other }' "$work/ours" "$work/before" "$work/idents"; then
    list_decks | stays=$work/stays awk '
        BEGIN { while ((getline deck < ENVIRON["stays"]) > 0) stays[deck] }
        !($1 in stays)' | while read -r deck code rest; do
        if [ -e "$folder/$(printf '%b' "$code")" ]; then printf '%s\n' "$deck"; fi
    done >"$work/same"
    note_since "$work/same" "$now"
fi
exit "$result"
