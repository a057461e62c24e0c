# What several scripts do: bring.sh, tree.sh, edit.sh and put.sh read this file, which does nothing alone. The last two send runs, once they have
# set library, site, mode, message and upd.
#
# A run that is to be sent is a folder of $runs, which its number names. What is too long for a run is an edit of several. A folder has
# these files, and others that its script has put there:
#
#     run      the run
#     since    the youngest ident that its author has seen, and the serial of that, or - where it isn't known
#     sets     the sets of the edit, in order
#     last     the number of the edit's last run

free=''
unset CDPATH

# A folder for what the script needs, by its whole path: of another awk may take a name with = for an assignment.
make_work() {
    work=$(mktemp -d) && work=$(cd -- "$work" && pwd) || exit 3
}

say() {
    printf '%s: %s\n' "${0##*/}" "$*" >&2
}

# A word as a shell reads it.
quoted() {
    printf "'%s'" "$(printf %s "$1" | sed "s/'/'\\\\''/g")"
}

# Where the folder of what is at work has no room for a copy of the library, that may be why.
fail() {
    if [ -r "$library" ] && ! cat "$library" >"$work/room"; then
        say "$work can't be written, or has no room: clear it, or name another folder by TMPDIR"
        exit 3
    fi
    say "what is wrong with $library? ask: $(quoted "$upd") examine -- $(quoted "$library")"
    exit 3
}

# A command of upd, with its faults in work/faults. A refusal gives 1, and anything else ends the script.
ask() {
    "$upd" "$@" 2>"$work/faults" || {
        if [ $? -eq 1 ]; then return 1; fi
        cat "$work/faults" >&2
        fail
    }
}

# A script of this folder, as it is there or as it is installed.
script() {
    for found in "$(dirname -- "$0")/$1.sh" "$(dirname -- "$0")/upd-$1"; do
        if [ -r "$found" ]; then
            printf '%s\n' "$found"
            return
        fi
    done
    say "$found is not there"
    exit 3
}

# Waits some seconds until nobody else works with LIST. The lock of LIST is LIST.lock; what is killed leaves it free.
lock_list() {
    command -v flock >/dev/null || {
        say "flock is not on the path"
        exit 3
    }
    (: >>"$list.lock") && exec 9>"$list.lock" || exit 3
    left=3
    until flock -n 9 9>&9; do # some shells close it else
        left=$((left - 1))
        [ "$left" -gt 0 ] || {
            say "another put.sh is at work with $list"
            exit 3
        }
        sleep 1
    done
}

# The first of a name, that with an end, that with two and so on that is not there yet.
free_name() {
    free=$1
    while [ -e "$free" ] || [ -L "$free" ]; do free=$free$2; done
}

# LIST becomes what awk, with these words, makes of it: all or nothing. `cat` sees that the disk is full, busybox awk doesn't.
# A link to LIST stays a link, and the rights stay.
change_list() {
    rm -f "$work/whole" && listed=$list || exit 3
    [ ! -L "$list" ] || listed=$(readlink -f "$list") || exit 3
    free_name "$listed.new" .new
    { awk "$@" <"$list" && : >"$work/whole"; } | cat >"$free" && [ -e "$work/whole" ] \
        && chmod "$(mode_of "$list")" "$free" && mv -f "$free" "$listed" || exit 3
    free=''
}

# The rights of a file.
mode_of() {
    ls -lLd -- "$1" | awk '
        function digit(bits) { return (bits ~ /^r/ ? 4 : 0) + (bits ~ /^.w/ ? 2 : 0) + (bits ~ /[xst]$/ ? 1 : 0) }
        NR == 1 { print digit(substr($1, 2, 3)) digit(substr($1, 5, 3)) digit(substr($1, 8, 3)) }'
}

# The decks of LIST: name, path, SINCE and its serial, the sums of lines and file, rights, and how the file was made to fit, one a line.
list_decks() {
    awk '
        function known(word, other) { return word == "" ? other : word }
        function end() { if (deck != "") print deck, path, known(since, "-"), known(serial, "-"), known(sum, "- -"), known(rights, 644), fit }
        $1 == "deck" { end(); deck = $2; path = since = serial = sum = rights = fit = "" }
        $1 == "path" {
            sub(/^[ \t]*path[ \t]*/, ""); sub(/[ \t]+$/, "")
            gsub(/ /, "\\0040"); gsub(/\t/, "\\0011")
            path = path $0
            next
        }
        $1 == "since" { since = $2; serial = $3 }
        $1 == "sum" { sum = $2 ":" $3 " " $4 ":" $5 }
        $1 == "mode" { rights = $2 }
        $1 == "fit" { fit = "--c" }
        END { end() }' "$list"
}

# Names each deck and each path that LIST has twice, and then gives 1: a file would get into the deck of another. work/paths gets the paths.
check_list() {
    : >"$work/paths" && list_decks | while read -r deck code rest; do
        printf '%s ' "$deck" && printf '%b\n' "$code"
    done | list=$list paths=$work/paths awk '
        {
            path = substr($0, length($1) + 2)
            gsub("/(\\./)+", "/", path); gsub("//+", "/", path); sub("^\\./", "", path)
            print path > ENVIRON["paths"]
            if ($1 in decks) print ENVIRON["list"] " has the deck " $1 " twice: take one of them out"
            else if (path in owner) print ENVIRON["list"] " has " path " as the path of two decks, " owner[path] " and " $1 \
                ": rename one of the files, and its path lines"
            decks[$1]; owner[path] = $1
        }' >"$work/doubles" || exit 3
    while IFS= read -r double; do say "$double"; done <"$work/doubles"
    [ ! -s "$work/doubles" ]
}

check_words() {
    case $site in
    '' | *[!A-Z0-9]* | ?????????*) usage ;;
    esac
    case $mode in
    full | quick | normal) ;;
    *) usage ;;
    esac
    is_plain || {
        say "a message has at most 77 bytes of printable ASCII"
        exit 2
    }
}

is_plain() {
    case $message in
    *[!\ -~]*) return 1 ;;
    esac
    [ ${#message} -le 77 ]
}

# Asks for a message, once.
ask_message() {
    while [ -z "$asked" ] && [ -t 0 ]; do
        printf 'what are these changes for? (a line of at most 77 bytes, or none) ' >&2
        read -r message || message=''
        if is_plain; then asked=1; fi
    done
}

# Asks until one of the answers comes that the question names: yes gives 0, no 1, edit 2.
agreed() {
    while :; do
        printf '%s' "$1" >&2
        read -r answer || { answer=no && echo >&2; }
        case $answer,$1 in
        y,*yes* | yes,*yes*) return 0 ;;
        n,* | no,*) return 1 ;;
        e,*edit* | edit,*edit*) return 2 ;;
        s,*show* | show,*show*) cat "$runs"/*/run ;;
        esac
    done
}

# The youngest ident of a library, and its serial. work/idents has all.
youngest() {
    ask idents -- "$1" >"$work/idents" && awk '$NF != "purged" { last = $2 " " $1 } END { print last }' "$work/idents"
}

# Whether work/idents has an ident as held, under a serial unless that is -. One that was purged can have come again.
is_held() {
    name=$1 serial=$2 awk '
        $2 == ENVIRON["name"] && $NF != "purged" && (ENVIRON["serial"] == "-" || ENVIRON["serial"] == $1) { found = 1 }
        END { exit !found }' "$work/idents"
}

# The site's next number in a library.
next_number() {
    ask sites -- "$1" >"$work/sites" || exit 3
    number=$(sed -n "s/^$site [0-9]* [0-9]* \\([^ ]*\\) .*/\\1/p" "$work/sites")
    number=${number:-1}
    if [ "$number" = none ]; then
        say "$site has no number left"
        exit 1
    fi
}

# A name of so many letters at most, the site and a number, that no ident of work/held has, nor with what may follow it.
name_set() {
    count=$number
    while
        set=$(printf "%.$(($1 - ${#count}))s%s" "$site" "$count")
        grep -v ' purged$' "$work/held" | cut -d ' ' -f 2 | grep -qx -e "$set$2"
    do count=$((count + 1)); done
}

# Begins the next run, of an edit with these sets and this last number.
begin() {
    run=$runs/$number
    mkdir -- "$run" && printf '%s\n' "$since $serial" >"$run/since" && printf '%s\n' "$1" >"$run/sets" && printf '%s\n' "$2" >"$run/last" || exit 3
    if [ -n "$message" ]; then printf '*/ %s\n' "$message"; fi >"$run/run" || exit 3
    number=$((number + 1))
}

# Makes the runs of a text that is too long for one, in a copy of a library from which all is purged that came after SINCE. The purge
# has the site's last number: that of a part must be free.
cut_text() {
    rm -rf "$work/past" "$work/past-wal" "$work/frames" && mkdir "$work/frames" && ask backup -- "$1" "$work/past" || exit 3
    later=$(since=$since awk '
        $NF == "purged" { next }
        first && $1 > first { print $2; exit }
        $2 == ENVIRON["since"] { first = $1 }' "$work/held")
    if [ -n "$later" ]; then printf '*PURGE %s,*\n' "$later" | ask run -- "$work/past" "$site" 999999999 quick >"$work/reply" || exit 3; fi
    name_set 7 '[0-9]*'
    ask correct-parts -- "$work/past" "$set" "$site" "$number" "$mode" <"$2" >"$work/spool" || return 1
    folder=$work/frames awk '
        left <= 0 && $1 == "RUN" { left = $5; file = ENVIRON["folder"] "/" $3; next }
        left > 0 { print > file; left -= length($0) + 1; if (left <= 0) close(file) }' "$work/spool" || exit 3
    last=$(ls "$work/frames" | sort -n | tail -n 1)
    sets=$(sed -n 's/^\*IDENT //p' "$work/spool" | tr '\n' ' ')
    while [ "$number" -le "${last:-0}" ]; do
        part=$work/frames/$number
        begin "$sets" "$last" && cat "$part" >>"$run/run" || exit 3
    done
}

# What the runs of an edit, from one that is to be sent to the last, meet of what others have done since SINCE: work/conflicts has the
# lines, and work/warnings all. From a copy the edit's runs that are accepted are purged, and lines that name cards of the edit are
# left out, which are where lines before them are. So nothing of its own hides what is of others. 1 where the run's number is known:
# then its reply is, too. 2 where it can't be looked at, as SINCE was purged. The runs' names are in names.
look() {
    read -r since serial <"$1/since" && read -r last <"$1/last" && read -r sets <"$1/sets" && : >"$work/conflicts" && : >"$work/warnings" || exit 3
    rm -f "$work/seen" "$work/seen-wal" && ask backup -- "$library" "$work/seen" && now=$(youngest "$work/seen") || exit 3
    part=${1##*/}
    if [ "$part" = "$last" ]; then names="run $part"; else names="runs $part to $last"; fi
    set=$(sed -n 's/^\*IDENT //p' "$1/run")
    accepted=$(set=$set awk '{ for (i = 1; i <= NF && $i != ENVIRON["set"]; i++) printf "%s%s", (i > 1 ? "," : ""), $i }' "$1/sets")
    theirs=$(purge=$work/purge awk -v sets="$accepted" '
        BEGIN { purge = ENVIRON["purge"]; printf "" > purge; for (size = split(sets, set, ","); size > 0; size--) is_own[set[size]] }
        $NF == "purged" { next }
        $2 in is_own { print "*PURGE " $2 > purge; next }
        { theirs = $2 " " $1 }
        END { print theirs }' "$work/idents") || exit 3
    # What others have done to the edit's own cards since is met only as of the edit's run before.
    if [ -s "$work/purge" ]; then now=$(sed -n '$s/^.PURGE //p' "$work/purge"); fi
    ask run -- "$work/seen" "$site" "$part" quick <"$work/purge" >"$work/reply" || return 1
    if ! is_held "$since" "$serial"; then
        say "$since, the last ident that the changes have seen, was purged: $again"
        return 2
    fi
    while [ "$part" -le "$last" ]; do
        awk -v sets="$sets" '
            BEGIN { for (size = split(sets, set, " "); size > 0; size--) is_own[set[size]] }
            /^\*(IDENT|INSERT|BEFORE|DELETE|RESTORE) / {
                is_left_out = 0
                for (i = $1 == "*IDENT" ? 0 : split($2, card, ","); i > 0; i--) { sub(/\..*/, "", card[i]); if (card[i] in is_own) is_left_out = 1 }
            }
            { print is_left_out ? "*/" : $0 }' "$runs/$part/run" >"$work/probe"
        ask try-at -- "$work/seen" "$mode" "$since" <"$work/probe" >"$work/reply"
        refused=$?
        if [ "$refused" -ne 0 ] && [ ! -s "$work/reply" ]; then # there are no warnings
            cat "$work/faults" >&2
            return 2
        fi
        sed -e '/ dropped comments: /d' -e '/ was purged after /d' -e "s/^upd: \([0-9]*\):/run $part, line \1:/" "$work/faults" >>"$work/warnings" || exit 3
        part=$((part + 1))
    done
    # A known serial shows that the ident is still the one that was seen.
    if [ "$serial" != - ]; then sed '/ was purged and came again: /d' "$work/warnings" >"$work/known" && mv "$work/known" "$work/warnings" || exit 3; fi
    grep -E ' came after [^ ]*( and is deleted)?$| by yanks after [^ ]*$| was purged and came again: ' "$work/warnings" >"$work/conflicts" || return 0
}

# Shows the lines of a file that were not shown yet.
show_new() {
    shown=$work/shown awk '
        BEGIN { while ((getline line < ENVIRON["shown"]) > 0) is_shown[line] = 1 }
        !is_shown[$0]++' "$1" >"$work/unshown" && cat "$work/unshown" >&2 && cat "$work/unshown" >>"$work/shown"
}

# Shows who switched the cards of a deck that conflicts name, and those beside, and of which file they are.
show_switched() {
    tr -c 'A-Z0-9+*/()$=.\n-' '\n' <"$work/conflicts" | grep '^[^.]*[^.]\.[1-9][0-9]*$' | sort -u >"$work/named"
    ask blame -- "$library" "$1" | file=$2 cards=$work/named awk '
        BEGIN { while ((getline card < ENVIRON["cards"]) > 0) named[card] }
        { line[NR] = $0; if ($2 in named) near[NR - 1] = near[NR] = near[NR + 1] = 1 }
        END { for (i = 1; i <= NR; i++) if (i in near) print (count++ ? "" : ENVIRON["file"] ":\n") line[i] }' >&2
}

# What else a script wants of the library before a run is sent: 1 where it is not to be sent. Scripts replace this.
may_send() {
    return 0
}

# Sends a run, with its reply to work/reply. Where it or a later one of its edit meets what others have done, only if `over_changes`
# gives 0. 1 where it is refused, 2 where it can't be looked at, 3 where it is not to be sent, 4 where no answer came.
send_run() {
    number=${1##*/}
    look "$1"
    case $? in
    0) may_send "$1" || return 2 ;;
    1) ;;
    *) return 2 ;;
    esac
    if [ -s "$work/conflicts" ]; then
        show_new "$work/conflicts"
        over_changes || return 3
        while [ "$part" -gt "$number" ]; do
            part=$((part - 1))
            printf '%s\n' "$theirs" >"$runs/$part/since" || exit 3
        done
    fi
    while :; do
        # What came since that copy, or the edit's run before, stops it. By a name that a purged ident had, too, it would always stop.
        if name=${now% *} awk '$2 == ENVIRON["name"] && $NF == "purged" { found = 1 } END { exit !found }' "$work/idents"; then
            "$upd" run -- "$library" "$site" "$number" "$mode" <"$1/run" >"$work/reply" 2>"$work/faults"
        else
            "$upd" run-at -- "$library" "$site" "$number" "$mode" "${now% *}" <"$1/run" >"$work/reply" 2>"$work/faults"
        fi
        case $? in
        0) return 0 ;;
        1) ;;
        *) cat "$work/faults" >&2 && return 4 ;;
        esac
        if [ -s "$work/reply" ] || ! grep -q '^upd: [0-9]*: ' "$work/faults"; then
            cat "$work/faults" >&2
            return 1
        fi
        sed "s/^upd: \([0-9]*\):/run $number, line \1:/" "$work/faults" >"$work/conflicts"
        show_new "$work/conflicts"
        over_changes || return 3
        now=$(youngest "$library") || exit 3
    done
}
