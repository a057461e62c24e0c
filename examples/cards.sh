#!/bin/sh
# Makes the cards of a file of source, notes what was changed in its lines, and names each line that can't be a card.
#
#     cards.sh [--c] [--cr] EMPTY FILE NOTES > CARDS
#
# bring.sh and put.sh use it. EMPTY is a library without decks, as `upd init` makes it. UPD is the program (`upd` unless it is set).
# NOTES gets the lines of a LIST from which tree.sh makes FILE again; tree.sh says what they mean. N is there the number of a card.
#
#     --cr   a CR at the end of a line is noted, and left out; else such a line can't be a card
#     --c    any text is made to fit, as C keeps its meaning. A line that a run would take for a comment, a directive or a call, as
#            `*/`, is indented by a blank. A line of more than 80 bytes is cut by a backslash and a line end, which C puts together
#            again. A form feed becomes a blank. Any other byte that no card has becomes a backslash and three octal digits, as C
#            writes it in a string. A file with a raw string, as R"(..)", is left as it is. So are the bytes of a file that has
#            a NUL, a backslash before such a byte, or such a byte in a line with a wide or Unicode literal, as L"..".
#
# Exit status:
#   0  CARDS and NOTES are written
#   1  a line can't be a card: each is named on standard error, as FILE:LINE:COLUMN
#   2  the words can't be read
#   3  something else failed, as a command or the disk
set -u
export LC_ALL=C

filter='' cr=''
while :; do
    case ${1-} in
    --c) filter=1 ;;
    --cr) cr=1 ;;
    *) break ;;
    esac
    shift
done
[ $# -eq 3 ] || {
    printf 'usage: %s [--c] [--cr] EMPTY FILE NOTES > CARDS\n' "${0##*/}" >&2
    exit 2
}
empty=$1 file=$2 notes=$3 upd=${UPD:-upd} codes=''

unset CDPATH
work=$(mktemp -d) && work=$(cd -- "$work" && pwd) || exit 3 # awk may take a relative name with = for an assignment
trap 'rm -rf "$work"' EXIT
trap 'exit 3' HUP INT TERM

# `bytes`, and the octal codes of the bytes that no card has, but for those whose escapes the file has too. Nothing where it has
# no such byte, or escapes can't stand for them, as work/why says.
byte_codes() {
    if [ $(($(tr -dc '\000' <"$file" | wc -c))) -gt 0 ]; then
        echo "leaves the bytes of the file as they are, since it has a NUL" >"$work/why"
        return
    fi
    why=$work/why awk '
        BEGIN { why = ENVIRON["why"]; for (i = 1; i < 256; i++) code[sprintf("%c", i)] = sprintf("%03o", i) }
        {
            sub(/\r$/, "")
            if (/\\[^\t\f -~]/) clash = NR " has a backslash before such a byte"
            else if (/[^\t\f -~]/ && /(^|[^A-Za-z0-9_])(L|U|u8?)["\047]/) clash = NR " has such a byte and a wide or Unicode literal"
            for (text = $0; match(text, /[^\t\f -~]|\\(\\|[0-3][0-7][0-7])/); text = substr(text, RSTART + RLENGTH))
                if (RLENGTH == 1) needed[code[substr(text, RSTART, 1)]]; else own[substr(text, RSTART + 1, 3)]
        }
        END {
            for (octal in needed) all = "bytes"
            for (i = 1; i < 256; i++) if ((octal = sprintf("%03o", i)) in needed && !(octal in own)) all = all " " octal
            if (clash) print "leaves the bytes of the file as they are, since line " clash > why; else print all
        }' <"$file"
}

# Writes the lines as cards, what was changed in them, and for each card its line in the file and the bytes before it. A CR that
# can't be noted is doubled, and a NUL is another control byte, so that both are found as bytes that no line has.
convert() {
    tr '\000' '\001' <"$file" | cards=$work/cards notes=$work/notes map=$work/map \
        awk -v filter="$filter" -v codes="$codes" -v keep_cr="$cr" '
        function note(kind, item) {
            if (length(line_of[kind]) + length(item) > 79) { print line_of[kind] > notes; line_of[kind] = "" }
            line_of[kind] = (line_of[kind] == "" ? kind : line_of[kind]) " " item
        }
        function put(text) { print text > cards; print NR, before > map; count++ }
        function is_special(text) {
            return text ~ /^\*(\/|(IDENT|ID|DECK|DK|COMDECK|CD|INSERT|I|BEFORE|B|DELETE|D|RESTORE|R|CALL|CA|YANK|Y)([ ,]|$))/ \
                || text ~ /^\*(SELYANK|YANKDECK|PURGE|SELPURGE|PURDECK|COMPILE|C)([ ,]|$)/
        }
        function is_bad_cut(text, size) {
            return substr(text, size, 1) ~ /[?\\]/ || substr(text, size - 2, 6) ~ /\\[0-3][0-7][0-7]/ \
                || is_special(substr(text, size + 1))
        }
        BEGIN {
            cards = ENVIRON["cards"]; notes = ENVIRON["notes"]; map = ENVIRON["map"]
            printf "" > cards; printf "" > notes; printf "" > map
            for (i = 1; i < 256; i++) octal[sprintf("%c", i)] = sprintf("%03o", i)
        }
        {
            text = $0; first = count + 1; before = 0
            if (keep_cr && sub(/\r$/, "", text)) with_cr[++crs] = first
            while (codes != "" && match(text, /[^\t\f -~]/)) {
                code = octal[substr(text, RSTART, 1)]
                if (!index(codes, code)) note("byte", first ":" RSTART)
                text = substr(text, 1, RSTART - 1) "\\" code substr(text, RSTART + 1)
            }
            sub(/\r$/, "\r\r", text)
            while (filter && match(text, /\f/)) {
                note("feed", first ":" RSTART)
                text = substr(text, 1, RSTART - 1) " " substr(text, RSTART + 1)
            }
            if (match(text, / +$/)) { note("blanks", first ":" RLENGTH); text = substr(text, 1, RSTART - 1) }
            if (filter && is_special(text)) { note("indent", first); text = " " text; before = -1 }
            while (filter && length(text) > 80) {
                size = 79
                while (size > 1 && is_bad_cut(text, size)) size--
                put(substr(text, 1, size) "\\")
                text = substr(text, size + 1); before += size
            }
            put(text)
            if (count > first) note("cut", first ":" count - first + 1)
        }
        END {
            if (crs == NR && NR) note("cr", "all")
            else for (i = 1; i <= crs; i++) note("cr", with_cr[i])
            size = split(codes, listed, " ")
            for (i = 2; i <= size; i++) note("bytes", listed[i])
            size = split("bytes byte feed blanks indent cut cr", listed, " ")
            for (i = 1; i <= size; i++) if (line_of[listed[i]] != "") print line_of[listed[i]] > notes
        }' || exit 3
    if [ -n "$(tail -c 1 <"$file")" ]; then echo "open $(($(wc -l <"$work/cards")))" >>"$work/notes"; fi
}

# Names the lines that can't be cards. A line that would begin a deck is checked as another directive.
check() {
    {
        echo '*DECK A'
        sed -E 's/^\*(DECK|DK|COMDECK|CD)([ ,]|$)/*ID\2/' "$work/cards"
    } | "$upd" correct -- "$empty" CHECK 2>&1 >"$work/run" | file=$file map=$work/map awk '
        BEGIN { while ((getline < ENVIRON["map"]) > 0) { line[++count] = $1; before[count] = $2 } }
        $1 == "TooManyLines" || $1 == "RunLong" { next }
        $1 == "upd:" { print ENVIRON["file"] ": " $0; next }
        {
            split($2, at, ":"); card = at[1] - 1; sub(/^[^ ]* [^ ]* /, "")
            print ENVIRON["file"] ":" (card > 0 ? line[card] ":" at[2] + before[card] ":" : "") " " $0
        }'
}

if [ ! -f "$file" ] || [ ! -r "$file" ]; then
    printf '%s: is not a file that can be read\n' "$file" >&2
    exit 1
fi
if [ -n "$filter" ] && grep -qE '(^|[^A-Za-z0-9_])(u8|[uUL])?R"[^() \"]{0,16}[(]' <"$file"; then
    filter='' && echo 'leaves the file as it is, since it has a raw string' >"$work/why" || exit 3
fi
if [ -n "$filter" ]; then codes=$(byte_codes) || exit 3; fi
convert
check >"$work/problems"
if [ -s "$work/problems" ]; then
    cat "$work/problems" >&2
    [ ! -e "$work/why" ] || printf '%s: --c %s\n' "$file" "$(cat "$work/why")" >&2
    exit 1
fi
cat "$work/notes" >"$notes" && cat "$work/cards" || exit 3
