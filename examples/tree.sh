#!/bin/sh
# Writes a tree of source files from the decks of a library, as they are now.
#
#     tree.sh FILE FOLDER < LIST
#     tree.sh --list LIST FILE FOLDER
#
# FILE is the library; no command may have it open. FOLDER is made, and must not be there before. LIST says which deck is which
# file: bring.sh writes it. UPD is the program (`upd` unless it is set).
#
# With --list the tree is one to edit, and put.sh brings in what was changed in it: LIST notes of each deck as of which ident its
# file is. A tree of `< LIST` is to be read: LIST still belongs to the tree before. common.sh is in this script's folder.
#
# A file gets the active cards of its deck, with calls as they are, and the rights that LIST notes. What bring.sh or put.sh changed
# in a line is undone as long as the card of that line is active: so a file whose deck was not corrected in another way is the
# file that it was, byte for byte. A line that was cut is put together again where its cards are active, one after the other; else it
# stays cut, as C allows it. Lines that came in another way are as they are in the library, but with a CR where each line of the
# file had one, and with the bytes that `bytes` lists.
#
# LIST has these lines, of at most 80 bytes. A deck that came in another way needs the first two only, written by hand. N is the
# number of a line as it was brought in.
#
#     deck NAME            begins a deck
#     path PATH            its file in FOLDER; several lines are one path; \0 and three octal digits are a byte
#     since IDENT SERIAL   the ident that was youngest when the file was that of the deck, and its serial, if that was known
#     sum CRC BYTES ..     what cksum gave then of the deck's lines and of the file, by which put.sh sees changes and purges
#     fit c                the file was made to fit by `--c`
#     mode OOO             the file's rights, where they aren't 644
#     part SET N           the lines from N on were added by SET
#     cr all, cr N ..      lines that ended with CR and LF
#     blanks N:COUNT ..    blanks at the end of the line
#     feed N:COLUMN ..     a form feed, where the card has a blank
#     indent N ..          lines that were indented by a blank
#     cut N:COUNT ..       a line that was cut into COUNT cards
#     join N:M ..          the card N ends with a cut, and M goes on, or another M where that is the next one
#     open N               the last line, where it had no line end
#     bytes OOO ..         octal codes: the escape \OOO is that byte in each line, also in those that came later
#     byte N:COLUMN ..     another byte, where the card has its escape
#
# Exit status:
#   0  the files are written
#   1  a deck is not in the library or has no active card, or a path is there already or leads out of FOLDER: each is named, the
#      others are written. With --list, LIST has a deck or a path twice: it is named, and nothing is written
#   2  the words are not FILE FOLDER
#   3  something else failed, as a command or the disk; what was written may be incomplete
set -u
export LC_ALL=C

for common in "$(dirname -- "$0")/common.sh" "$(dirname -- "$0")/upd-common"; do [ ! -r "$common" ] || break; done
. "$common" || exit 3

list=''
if [ "${1-}" = --list ] && [ -n "${2-}" ]; then
    list=$2
    shift 2
fi
[ $# -eq 2 ] || {
    say "usage: ${0##*/} [--list LIST] FILE FOLDER < LIST; with --list no LIST is read from standard input"
    exit 2
}
library=$1 folder=$2 upd=${UPD:-upd} result=0
case $folder in -*) folder=./$folder ;; esac
case $list in -* | [!/]*=*) list=./$list ;; esac # no option, and no assignment of awk

make_work
trap 'rm -rf "$work" ${free:+"$free"}' EXIT
trap 'exit 3' HUP INT TERM
if [ -n "$list" ]; then
    lock_list
    check_list || exit 1
    # All decks as of one moment.
    "$upd" backup -- "$library" "$work/copy" && "$upd" idents -- "$work/copy" >"$work/idents" || exit 3
    library=$work/copy since=$(awk '$NF != "purged" { last = $2 " " $1 } END { print last }' "$work/idents")
    exec <"$list" || exit 3
fi
mkdir -- "$folder" && : >"$work/sums" || exit 3

# The lines of the file, from the notes of a deck and its listing.
restore() {
    awk -v deck="$1" '
        BEGIN { for (i = 1; i < 256; i++) byte[sprintf("%03o", i)] = sprintf("%c", i) }
        FNR == NR && $1 == "part" { start[$2] = $3; next }
        FNR == NR && $1 == "cr" && $2 == "all" { all_cr = 1; next }
        FNR == NR {
            for (i = 2; i <= NF; i++) {
                split($i, item, ":")
                if ($1 == "feed") feeds[item[1]] = feeds[item[1]] " " item[2]
                else if ($1 == "byte") note["byte", item[1], item[2]] = 1
                else if ($1 == "cut") for (n = item[1]; n < item[1] + item[2] - 1; n++) is_cut[n] = is_join[n, n + 1] = 1
                else if ($1 == "join") is_cut[item[1]] = is_join[item[1], item[2]] = 1
                else note[$1, item[1]] = item[2] == "" ? 1 : item[2]
            }
            next
        }
        FNR > 1 && $1 == "A" {
            split($2, card, ".")
            if (card[1] == deck && card[2] == 1) next
            text[++count] = substr($0, length($2) + 4)
            line[count] = card[1] == deck ? card[2] - 1 : card[1] in start ? start[card[1]] + card[2] - 1 : 0
        }
        function decoded(text, number,    done, code, before, is_byte) {
            while (match(text, /\\(\\|[0-3][0-7][0-7])/)) {
                code = substr(text, RSTART + 1, RLENGTH - 1)
                is_byte = note["bytes", code] || note["byte", number, before + RSTART]
                done = done substr(text, 1, RSTART - 1) (is_byte ? byte[code] : "\\" code)
                before += RSTART + RLENGTH - 1; text = substr(text, RSTART + RLENGTH)
            }
            return done text
        }
        # the last card of the line that begins with a card, or 0 where one of its cards is another
        function last_of(at) {
            for (; line[at] in is_cut; at++) if (at == count || !((line[at], line[at + 1]) in is_join) || text[at] !~ /\\$/) return 0
            return at
        }
        END {
            for (at = 1; at <= count; at++) {
                number = line[at]; whole = text[at]; last = last_of(at)
                while (at < last) whole = substr(whole, 1, length(whole) - 1) text[++at]
                if (last) {
                    if (note["indent", number]) sub(/^ /, "", whole)
                    for (i = note["blanks", number]; i > 0; i--) whole = whole " "
                    size = split(feeds[number], column, " ")
                    for (i = 1; i <= size; i++) whole = substr(whole, 1, column[i] - 1) "\f" substr(whole, column[i] + 1)
                }
                whole = decoded(whole, last ? number : 0)
                if (all_cr || note["cr", number]) whole = whole "\r"
                printf "%s%s", whole, (at == count && note["open", line[at]] ? "" : "\n")
            }
        }' "$work/notes" "$work/listing"
}

# Whether a path in FOLDER leads through what is a file.
has_file_above() {
    above=$1
    while
        case $above in
        */*) above=${above%/*} ;;
        *) return 1 ;;
        esac
    do
        [ ! -e "$folder/$above" ] || [ -d "$folder/$above" ] || return 0
    done
}

# Writes the file of a deck.
write_file() {
    path=$(printf '%b' "$2")
    case /$path/ in
    // | */../*)
        say "$path, of $1, is not a path in $folder"
        result=1
        return
        ;;
    esac
    "$upd" list -- "$library" "$1" >"$work/listing" 2>"$work/fault"
    case $? in
    0 | 1) ;; # 1 where there is no such deck
    *)
        cat "$work/fault" >&2
        exit 3
        ;;
    esac
    if ! grep -q '^A ' "$work/listing"; then
        say "$1 is not in the library or has no active card: $path is not written"
        result=1
        return
    fi
    file=$folder/$path
    if [ -e "$file" ]; then
        say "$path, of $1, is there already"
        result=1
        return
    fi
    if ! mkdir -p -- "${file%/*}" 2>"$work/fault"; then
        if has_file_above "$path"; then
            say "$path, of $1, would be in a folder that is a file"
            result=1
            return
        fi
        cat "$work/fault" >&2
        exit 3
    fi
    rm -f "$work/whole" # `cat` sees that the disk is full, busybox awk doesn't
    { restore "$1" && : >"$work/whole"; } | cat >"$file" && [ -e "$work/whole" ] || exit 3
    if [ -n "$list" ]; then
        printf '%s %s %s\n' "$1" "$(sed -n '1!s/^A [^ ]* //p' "$work/listing" | sed 1d | cksum)" "$(cksum <"$file")" >>"$work/sums" || exit 3
    fi
    mode=$(sed -n 's/^mode \([0-7][0-7][0-7]\)$/\1/p' "$work/notes")
    [ -z "$mode" ] || chmod "$mode" "$file" || exit 3
}

deck='' path=''
while read -r word rest || [ -n "$word" ]; do
    case $word in
    deck)
        if [ -n "$deck" ]; then write_file "$deck" "$path"; fi
        deck=$rest path='' && : >"$work/notes" || exit 3
        ;;
    path) path=$path$rest ;;
    esac
    printf '%s %s\n' "$word" "$rest" >>"$work/notes" || exit 3
done
if [ -n "$deck" ]; then write_file "$deck" "$path"; fi
if [ -n "$list" ]; then
    export since sums="$work/sums"
    # shellcheck disable=SC2016 # these words are of awk
    change_list '
        BEGIN { while ((getline line < ENVIRON["sums"]) > 0) { split(line, word, " "); sum[word[1]] = "sum " substr(line, length(word[1]) + 2) } }
        $1 != "since" && $1 != "sum" { print }
        $1 == "deck" { print "since " ENVIRON["since"]; if ($2 in sum) print sum[$2] }'
fi
exit "$result"
