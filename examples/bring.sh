#!/bin/sh
# Makes a spool of runs that add files of source to a library, each as a deck.
#
#     find source -name '*.f' | sort | bring.sh FILE SITE NUMBER > source.spool
#     upd spool FILE < source.spool
#
#     bring.sh [--c] [--skip] [--list LIST] [-m MESSAGE] FILE SITE NUMBER
#
# Standard input names the source files, one a line. FILE is the library; it is read for the names in use, and copied, and no
# command may have it open. The runs are of SITE, and numbered from NUMBER on. UPD is the program (`upd` unless it is set).
#
# A deck is named by its file: the name up to its first point, in upper case, cut to 9 bytes, with `-` for each byte that no
# name has. A name that is in use gets /2, /3 and so on at its end. A file that is too long for a run is added by several: after
# the first, the sets NAME+1, NAME+2 and so on add the rest at the deck's end. Standard error says which runs add which file.
#
# A spool is written only where each line of each file becomes a card. Otherwise each line that can't is named on standard error
# as FILE:LINE:COLUMN. Blanks at the end of lines are not kept, and a last line without a line end gets one.
#
#     --skip        leaves such files out, and writes the spool of the others
#     --list LIST   adds to LIST: the decks, their files, and what was changed in each. With LIST, tree.sh writes the files back,
#                   byte for byte, and put.sh brings in what was changed in them. A CR at the end of a line is noted there, and
#                   left out. A LIST that is there is kept, and has no path twice.
#     --c           with --list: the files are made to fit, C or any other text. What is C keeps its meaning. The first lines of
#                   cards.sh say what is changed.
#     -m MESSAGE    what the runs are for, at most 77 bytes: their first line, as a comment
#
# Before the spool is written, it is tried on a copy of FILE, which has to accept each run, and on an empty library: tree.sh
# writes each file back, and each is compared with its source. tree.sh, cards.sh and common.sh are in this script's folder.
#
# Exit status:
#   0  the spool is written, with --skip perhaps without some files
#   1  a file can't be read, a line can't be a card, a path is in LIST, or FILE refuses a run, as for want of room: nothing is written
#   2  the words can't be read
#   3  something else failed, as a command or the disk; what was written may be incomplete
set -u
export LC_ALL=C

for common in "$(dirname -- "$0")/common.sh" "$(dirname -- "$0")/upd-common"; do [ ! -r "$common" ] || break; done
. "$common" || exit 3

usage() {
    say "usage: ${0##*/} [--c] [--skip] [--list LIST] [-m MESSAGE] FILE SITE NUMBER < names-of-source-files; --c asks for --list"
    exit 2
}

c='' skip='' list='' message=''
while [ $# -gt 0 ]; do
    case $1 in
    --c) c=1 ;;
    --skip) skip=1 ;;
    --list)
        [ -n "${2-}" ] || usage
        list=$2
        shift
        ;;
    -m)
        [ $# -gt 1 ] || usage
        message=$2
        shift
        ;;
    --)
        shift
        break
        ;;
    -*) usage ;;
    *) break ;;
    esac
    shift
done
[ $# -eq 3 ] || usage
[ -z "$c" ] || [ -n "$list" ] || usage
case $3 in
'' | 0* | *[!0-9]* | ??????????*) usage ;;
esac
case $list in -* | [!/]*=*) list=./$list ;; esac # no option, and no assignment of awk
library=$1 site=$2 number=$3 mode=quick
upd=${UPD:-upd} files=0 unfit=0
check_words

tree=$(script tree) && cards=$(script cards) || exit 3

make_work
trap 'rm -rf "$work" ${free:+"$free"}' EXIT
trap 'exit 3' HUP INT TERM
spool=$work/spool added=$work/added taken=$work/taken
if [ -n "$message" ]; then printf '*/ %s\n' "$message"; fi >"$work/message" || exit 3
: >"$spool" && : >"$added" && : >"$work/list" && : >"$work/report" || exit 3
"$upd" init "$work/empty" || exit 3
"$upd" idents -- "$library" >"$work/idents" || exit 3
[ -z "$list" ] || lock_list
if [ -n "$list" ] && [ -e "$list" ]; then awk 1 <"$list"; fi >"$work/old" || exit 3 # a last line without an end gets it
{
    printf '%s\n' '*' 'YANK$$$'
    grep -v ' purged$' "$work/idents" | cut -d ' ' -f 2
    sed -n -e 's/^deck //p' -e 's/^part \([^ ]*\) .*/\1/p' "$work/old"
} >"$taken"
# Paths in one form: `find .` names a/b.c as ./a/b.c.
one_form() {
    sed -e 's|/\(\./\)*|/|g' -e 's|//*|/|g' -e 's|^\./||'
}

awk '
    $1 == "deck" { if (path != "") print path; path = "" }
    $1 == "path" { path = path $2 }
    END { if (path != "") print path }' "$work/old" | one_form >"$work/paths" || exit 3

# The name, or the name with a mark and a number, from a number on, that nothing has. The name is then in use.
new_name() {
    wanted=$1 mark=$2 count=$3 found=$4
    while grep -qxF -e "$found" "$taken"; do
        end=$mark$count
        found=$(printf "%.$((9 - ${#end}))s%s" "$wanted" "$end")
        count=$((count + 1))
    done
    printf '%s\n' "$found" | tee -a "$taken"
}

# The name that a file's name asks for.
wanted_name() {
    base=${1##*/}
    base=${base#.}
    printf '%s\n' "${base%%.*}" | tr '[:lower:]' '[:upper:]' | tr -c 'A-Z0-9+*/()$=\n-' '-' | cut -c 1-9 | sed 's/^$/-/'
}

# Cuts the cards into parts that each fit into a run with two more lines and a message, as FOLDER/1, FOLDER/2 and so on.
cut_cards() {
    folder=$1 awk '
        BEGIN { folder = ENVIRON["folder"]; part = folder "/" ++parts; printf "" > part }
        lines == 1997 || bytes + length($0) > 65400 { close(part); part = folder "/" ++parts; lines = bytes = 0 }
        { print > part; lines++; bytes += length($0) + 1 }' "$work/cards"
}

# Appends a run to the spool, as a frame, with the message first.
add_run() {
    {
        printf 'RUN %s %s %s %s\n' "$site" "$number" "$mode" "$(($(cat "$work/message" "$1" | wc -c)))" && cat "$work/message" "$1" && echo
    } >>"$spool" || exit 3
    number=$((number + 1))
}

# The path of a file, without what leads out of a folder, in one form.
inner_path() {
    outer=/$1
    case $outer in
    */../*) printf '%s\n' "${outer##*/../}" ;;
    *) printf '%s\n' "$1" ;;
    esac | one_form
}

# A path as LIST has it: a byte that isn't plain is \0 and three octal digits.
encoded() {
    printf '%s\n' "$1" | awk '
        BEGIN { for (i = 1; i < 256; i++) code[sprintf("%c", i)] = sprintf("\\0%03o", i) }
        {
            for (i = 1; i <= length($0); i++) {
                byte = substr($0, i, 1)
                path = path (byte ~ /[!-[]|[]-~]/ ? byte : code[byte])
            }
            print path
        }'
}

# The lines of a deck in LIST, for a file with an encoded path, before its parts and notes. SINCE gets its ident at the end.
list_deck() {
    printf 'deck %s\nsince\nsum %s %s\n' "$1" "$(cksum <"$work/cards")" "$(cksum <"$2")" && printf '%s\n' "$3" | fold -b -w 75 | sed 's/^/path /' || return
    [ -z "$c" ] || echo 'fit c'
    ls -lLd -- "$2" | awk '
        function digit(bits) { return (bits ~ /^r/ ? 4 : 0) + (bits ~ /^.w/ ? 2 : 0) + (bits ~ /[xst]$/ ? 1 : 0) }
        NR == 1 { mode = digit(substr($1, 2, 3)) digit(substr($1, 5, 3)) digit(substr($1, 8, 3)) }
        END { if (mode != "644") print "mode " mode }'
}

# Adds the runs of a file as the deck with a name.
add_file() {
    first=$number part=1 size=$(($(wc -l <"$work/parts/1")))
    last=$2.$((size + 1))
    list_deck "$2" "$1" "$path" >>"$work/list" || exit 3
    { echo "*DECK $2" && cat "$work/parts/1"; } >"$work/run" || exit 3
    add_run "$work/run"
    while part=$((part + 1)) && [ -e "$work/parts/$part" ]; do
        set=$(new_name "$2" + $((part - 1)) "$2")
        { printf '*IDENT %s\n*INSERT %s\n' "$set" "$last" && cat "$work/parts/$part"; } >"$work/run" || exit 3
        add_run "$work/run"
        printf 'part %s %s\n' "$set" "$((size + 1))" >>"$work/list"
        last=$set.$(($(wc -l <"$work/parts/$part")))
        size=$((size + ${last##*.}))
    done
    cat "$work/notes" >>"$work/list" || exit 3
    runs="run $first"
    if [ $((number - first)) -gt 1 ]; then runs="runs $first to $((number - 1))"; fi
    say "$1 is the deck $2, $runs" 2>>"$work/report"
    if [ -n "$list" ] && [ "$2" != "$wanted" ] && grep -qF -e " $wanted deck held" "$work/idents" && ! grep -qxF -e "deck $wanted" "$work/old" "$work/list"; then
        say "the library has a deck $wanted that LIST doesn't have: is it this file, of another tree?" 2>>"$work/report"
    fi
    printf '%s\n%s\n' "$(inner_path "$1")" "$1" >>"$added"
}

while IFS= read -r file || [ -n "$file" ]; do
    files=$((files + 1))
    if [ ! -f "$file" ] || [ ! -r "$file" ]; then
        say "$file is not a file that can be read"
        unfit=$((unfit + 1))
        continue
    fi
    path=$(encoded "$(inner_path "$file")")
    if grep -qxF -e "$path" "$work/paths"; then
        say "$file is there already, by $path"
        unfit=$((unfit + 1))
        continue
    fi
    UPD=$upd sh "$cards" ${c:+--c} ${list:+--cr} "$work/empty" "$file" "$work/notes" >"$work/cards"
    case $? in
    0) ;;
    1)
        unfit=$((unfit + 1))
        continue
        ;;
    *) exit 3 ;;
    esac
    if [ -n "$skip" ] || [ "$unfit" -eq 0 ]; then
        wanted=$(wanted_name "$file")
        deck=$(new_name "$wanted" / 2 "$wanted")
        rm -rf "$work/parts" && mkdir "$work/parts" && cut_cards "$work/parts" || exit 3
        add_file "$file" "$deck"
        printf '%s\n' "$path" >>"$work/paths" || exit 3
    fi
done
if [ "$unfit" -gt 0 ]; then
    if [ -z "$skip" ]; then
        say "$unfit of $files files don't fit: ${0##*/} --skip leaves them out"
        exit 1
    fi
    say "$unfit of $files files don't fit"
fi

# Sends the spool to a library, which has to accept each run.
try_spool() {
    "$upd" spool "$1" <"$spool" >"$work/answers" || exit 3
    if grep -v '"state":"accepted"}$' "$work/answers" >&2; then
        say "these runs are refused"
        exit 1
    fi
}

# The spool on a copy of the library, and on the empty one, from which each file is written back as it was.
"$upd" backup -- "$library" "$work/copy" || exit 3
try_spool "$work/copy"
try_spool "$work/empty"
UPD=$upd sh "$tree" "$work/empty" "$work/tree" <"$work/list" || exit 3
while IFS= read -r path && IFS= read -r file; do
    cmp -s "$work/tree/$path" - <"$file" || {
        say "$file is not written back as it was"
        exit 3
    }
done <"$added"
if [ -n "$list" ]; then
    sed "s|^since\$|since $(tail -n 1 "$taken")|" "$work/list" >"$work/new" && listed=$list || exit 3
    [ ! -L "$list" ] || listed=$(readlink -f "$list") || exit 3
    free_name "$listed.new" .new
    cat "$work/old" "$work/new" >"$free" && { [ ! -e "$list" ] || chmod "$(mode_of "$list")" "$free"; } || exit 3
fi
cat "$spool" || exit 3
[ -z "$list" ] || mv -f "$free" "$listed" || exit 3
free=''
cat "$work/report" >&2
