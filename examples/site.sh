#!/bin/sh
# Sends the runs of one site to a library, in order, and stores the replies. It can be killed and started again at any time.
#
#     site.sh FOLDER SITE FILE     runs go to the library in FILE, by the program UPD (`upd` unless it is set)
#     site.sh FOLDER SITE URL      runs go to a server, as http://127.0.0.1:8080, by curl
#     SOCKET=PATH site.sh FOLDER SITE http://desk      runs go to `upd serve-local`, whose socket is PATH
#
#     FOLDER/outbox/fix.full       a run that you put here; the name ends in the mode, .full, .quick or .normal
#     FOLDER/sent/7.fix.full       the same run, once it has its number
#     FOLDER/replies/7.json        its reply
#
# CURL_CONFIG names a file of options for curl, as `user = "lyon:secret"` or `netrc-file = "/home/lyon/netrc"`, and `cacert`.
# Let only its owner read it. A URL with a password in it isn't taken: each user of the machine can see the words of a command.
#
# Write a run under a name that begins with a dot, and rename it when it is complete. In the order of names each run gets the
# next number and moves to FOLDER/sent. It keeps its number and its bytes, and is sent until it is answered. So it acts once.
# Each answer is a line on standard output, a refused one on standard error. When all runs in FOLDER/sent are answered, the
# site settles up to the greatest number, and the library forgets the replies. Keep FOLDER/sent until a backup of the library
# has these runs.
#
# A site that has sent runs in another way, or whose FOLDER is restored from a backup, begins after its greatest number, which
# `upd sites` shows, 41, say: touch FOLDER/sent/41.used
#
# Exit status:
#   0  all runs are answered and settled, and none was refused
#   1  the same, but a run was refused now, or a file in the outbox can't be sent; each is named on standard error
#   2  the words are not FOLDER SITE FILE or FOLDER SITE URL, or URL has a password
#   3  start the script again: no answer after TRIES tries, PAUSE seconds apart (10 and 5 unless they are set); or a file
#      can't be moved, the settlement failed, another site.sh is at work in FOLDER, or a program is missing. If a proxy
#      answered 401 or 403, check the password, or the site and the path, before that. It is not tried again by itself.
#   4  a run was answered without a reply, and nothing is sent after it. It is named with that answer. RunChanged and Settled
#      mean that something else has sent runs of this site. Rename FOLDER/sent/7.fix.full to 7.fix.refused, put the run into
#      the outbox again, and start the script again.
set -u
export LC_ALL=C # names are in the order of their bytes

say() {
    printf '%s: %s\n' "${0##*/}" "$*" >&2
}

usage() {
    say "usage: ${0##*/} FOLDER SITE FILE-OR-URL; a site is 1 to 8 of A-Z and 0-9"
    exit 2
}

[ $# -eq 3 ] || usage
case $2 in
'' | *[!A-Z0-9]* | ?????????*) usage ;;
esac
folder=$1 site=$2 desk=$3
case $folder in -*) folder=./$folder ;; esac
upd=${UPD:-upd} tries=${TRIES:-10} pause=${PAUSE:-5}
newline='
'
case $desk in
http://* | https://*) desk=${desk%/} program=curl host=${desk#*://} ;;
*) program=$upd host= ;;
esac
case ${host%%/*} in
*@*)
    say "a password in the URL can be seen by each user of this machine: name a file by CURL_CONFIG, see the first lines of $0"
    exit 2
    ;;
esac
if [ -n "${CURL_CONFIG-}" ] && { [ ! -f "$CURL_CONFIG" ] || [ ! -r "$CURL_CONFIG" ]; }; then
    say "CURL_CONFIG, $CURL_CONFIG, is not a file that can be read"
    exit 3
fi
for needed in "$program" flock; do
    command -v "$needed" >/dev/null || {
        say "$needed is not on the path"
        exit 3
    }
done
mkdir -p "$folder/outbox" "$folder/sent" "$folder/replies" || exit 3

# Only one script at a time works in a folder. What sends for it has the lock too, and ends before another script begins.
(: >>"$folder/lock") || exit 3
exec 9>"$folder/lock" || exit 3
flock -n 9 9>&9 || { # some shells close it else
    say "another site.sh is at work in $folder"
    exit 3
}

# The numbers that were given, in order.
numbers() {
    for run in "$folder/sent"/*; do
        name=${run##*/}
        printf '%s\n' "${name%%.*}"
    done | grep '^[1-9][0-9]*$' | sort -n
}

# The greatest number that was given. Who removes runs from FOLDER/sent leaves their replies, or the settlement.
greatest() {
    {
        numbers
        for reply in "$folder/replies"/*.json; do
            name=${reply##*/}
            printf '%s\n' "${name%.json}"
        done | grep '^[1-9][0-9]*$'
        sed -n 's/.*"settled":\([1-9][0-9]*\),.*/\1/p' "$folder/settled.json" 2>/dev/null
    } | sort -n | tail -n 1
}

# Why a file in the outbox can't be sent; nothing where it can.
obstacle() {
    case $1 in
    *"$newline"*) echo "has a line end in its name" ;;
    *.full | *.quick | *.normal)
        if [ ! -f "$1" ] || [ ! -r "$1" ]; then
            echo "is not a file that can be read"
        elif [ "$(wc -c <"$1")" -gt 65536 ]; then
            echo "has more than 65,536 bytes: cut it in two"
        fi
        ;;
    *) echo "has another suffix than .full, .quick and .normal" ;;
    esac
}

# Gives each run in the outbox its number. A rename happens wholly or not at all.
number_runs() {
    number=$(greatest)
    number=${number:-0}
    for run in "$folder/outbox"/*; do
        [ -e "$run" ] || [ -L "$run" ] || continue # the outbox is empty
        why=$(obstacle "$run")
        if [ "$number" -ge 999999999 ]; then why="can't be sent: $site has no number left"; fi
        if [ -n "$why" ]; then
            say "$run $why; it stays there"
            result=1
        else
            number=$((number + 1))
            mv "$run" "$folder/sent/$number.${run##*/}" || exit 3
        fi
    done
}

# Posts the data to a path of the site, and writes the answer to a file. The status is 000 where there is no whole answer.
post() {
    status=$(curl ${CURL_CONFIG:+--config "$CURL_CONFIG"} ${SOCKET:+--unix-socket "$SOCKET"} --silent --max-time 60 --header Expect: --header Content-Type: \
        --output "$1" --write-out '%{http_code}' --data-binary "$2" "$desk/sites/$site/$3") || status=000
    case $status in
    401) say "the answer is 401: check the password, in the file that CURL_CONFIG names" ;;
    403) say "the answer is 403: check the site $site, the path $desk, and whose password it is" ;;
    *) return ;;
    esac
    exit 3
}

# Sends a run once: 0 answered, with the reply in FOLDER/replies/part; 3 no answer; 4 an answer that is not a reply.
send() {
    number=$1 mode=$2 run=$3
    rm -f "$part"
    case $program in
    curl)
        post "$part" "@$run" "runs/$number/$mode"
        case $status in
        200 | 422) ;;
        000 | 5??) return 3 ;;
        *) return 4 ;;
        esac
        ;;
    *)
        "$upd" run -- "$desk" "$site" "$number" "$mode" <"$run" >"$part"
        case $? in
        0 | 1) ;;
        2) return 4 ;;
        *) return 3 ;;
        esac
        ;;
    esac
    grep -q "\"run\":$number,\"site\":\"$site\",\"state\":\"[a-z]*\"}\$" "$part" || return 4
}

# Sends a run until it is answered, stores the answer, and says what it is.
send_until_answered() {
    number=$1 mode=$2 run=$3 left=$tries part="$folder/replies/part"
    while :; do
        send "$number" "$mode" "$run"
        case $? in
        0) break ;;
        4)
            say "${run##*/} has no reply, but this answer: $(head -c 500 "$part" 2>/dev/null | tr -c '[:print:]\n' '?')"
            say "nothing is sent after it; the first lines of $0 say what to do"
            exit 4
            ;;
        esac
        left=$((left - 1))
        if [ "$left" -le 0 ]; then
            say "${run##*/} has no answer yet"
            exit 3
        fi
        sleep "$pause" 9>&-
    done
    if grep -q '"state":"refused"}$' "$part"; then
        say "${run##*/} is refused: $(cat "$part")"
        result=1
    else
        printf '%s is accepted\n' "${run##*/}"
    fi
    mv "$part" "$folder/replies/$number.json" || exit 3
}

# Settles up to a number. A settlement that is lost can be made again at any time.
settle() {
    answer="$folder/settled.json"
    if grep -qs "\"settled\":$1," "$answer"; then
        return
    fi
    sync # the replies are on the disk before the library forgets them
    case $program in
    curl) post "$answer.part" '' "settled/$1" && [ "$status" = 200 ] ;;
    *) "$upd" settle -- "$desk" "$site" "$1" >"$answer.part" ;;
    esac && grep -q '"settled":' "$answer.part" && mv "$answer.part" "$answer"
}

result=0
number_runs
for number in $(numbers); do
    set -- "$folder/sent/$number".*
    case $1 in
    *.full | *.quick | *.normal) # a number without such a file is passed over
        if [ ! -e "$folder/replies/$number.json" ]; then
            send_until_answered "$number" "${1##*.}" "$1"
        fi
        ;;
    esac
done
last=$(numbers | tail -n 1)
if [ -n "$last" ] && ! settle "$last"; then
    say "the settlement up to $last failed"
    exit 3
fi
exit "$result"
