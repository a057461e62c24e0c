#!/bin/sh
# Tries the scripts of examples/ under each shell and each awk that is installed, of dash, bash, busybox, ksh93, mawk, gawk and original-awk.
#
#     bench/scripts.sh [EXECUTABLE [TOOL..]]     crates/upd/out/upd, unless another one is named; a TOOL, as ksh93 or 'busybox awk', is one of these
#
# Under each: bring.sh and tree.sh bring in files with hostile names and bytes and write them back, byte for byte. Two sites put their changes into one
# library by put.sh, on other lines, on the same one and at the same time, and one twice at once; one adds files, removes one, changes 2,500 lines, and is
# killed while it sends. edit.sh edits a deck, a line that another site has changed, and files of a tree. An edit of several runs meets what came before its
# first run, between two of them and after one that got no answer; and idents are purged, or come again, that an edit has seen. Decks go out of use and are
# purged. LIST and the tree have odd names, a disk is full, a file becomes a folder, LIST has a path twice, and two scripts work with one LIST. A file is
# saved while put.sh works, and a deck that goes out of use is changed then. LIST notes what the library never had. site.sh sends a run, and once finds its
# folder in use. What comes out must be the tree that was put in, and LIST the same under all.
#
# Exit status: 0 all is as it should be, 1 something is not, 3 the executable is not there
set -u
export LC_ALL=C
root=$(cd "$(dirname -- "$0")/.." && pwd)
upd=${1:-$root/crates/upd/out/upd}
[ $# -eq 0 ] || shift
case $upd in /*) ;; *) upd=$(pwd)/$upd ;; esac
[ -x "$upd" ] || {
    echo "$upd isn't there: \`rt run\` in crates/upd makes it" >&2
    exit 3
}
work=$(mktemp -d) && trap 'rm -rf "$work"' EXIT || exit 3
export UPD="$upd"
wrong=0

# Runs a command, whose status must be the first word.
expect() {
    wanted=$1
    shift
    "$@" >out 2>err
    status=$?
    [ "$status" -eq "$wanted" ] && return
    echo "$tools: status $status, and not $wanted: $*"
    tail -n 3 err
    wrong=$((wrong + 1))
}

# What must hold.
must() {
    "$@" >held 2>&1 && return
    echo "$tools: does not hold: $*"
    head -n 3 held
    wrong=$((wrong + 1))
}

script() {
    name=$1
    shift
    sh "$root/examples/$name.sh" "$@"
}

answering() {
    answer=$1
    shift
    printf '%b' "$answer" | "$@"
}

# 2,500 lines, and files with names and bytes that scripts trip over. The last three can't be brought in.
make_source() {
    mkdir source "source/a b"
    awk 'BEGIN { for (i = 1; i <= 2500; i++) print "line " i }' >source/long.c
    printf 'int a;\n*/\n*DECK X\n\f  x\t \n*C\n' >'source/$HOME `id` "q" %s\.c'
    printf 'one\r\ntwo\r\n' >"source/a b/-cr*.txt"
    printf 'one\r\ntwo\n' >"source/a b/mixed'.txt"
    printf 'caf\351 "\\351"\n\303\251 \\\\ last' >"source/a b/caf$(printf '\351').c"
    awk 'BEGIN { for (i = 0; i < 300; i++) s = s (i % 7 ? "?" : "\\101"); print s; print "#!x" s }' >source/run.sh
    chmod 755 source/run.sh
    cp source/run.sh 'source/[r]un.sh' && chmod 644 'source/[r]un.sh'
    : >source/empty.h
    printf '\n\n  \n' >source/blank.h
    chmod 664 source/blank.h
    printf 'a\000\351\n' >source/nul.c
    printf 'R"(\351)"\n' >source/raw.c
    printf 'L"\351"\n' >source/wide.c
}

try_trees() {
    make_source
    expect 0 "$upd" init l.db
    find source -type f | sort >names
    expect 1 answering "$(sed 's/[\\%]/\\&/g; s/$/\\n/' names | tr -d '\n')" script bring --c --list LIST l.db ROME 1
    expect 0 script bring --c --skip --list LIST l.db ROME 1 <names && cp out spool
    must [ "$(grep -c ': ' err)" -ge 4 ]
    must [ "$(grep -c ': --c leaves .* as .* since ' err)" -eq 3 ]
    expect 0 "$upd" spool l.db <spool
    rm source/nul.c source/raw.c source/wide.c
    expect 0 script tree l.db tree <LIST
    must diff -r source tree/source
    must [ -x tree/source/run.sh ]
    expect 1 script bring --list LIST l.db ROME 50 <names
    cp LIST LIST.ROME
    cp LIST LIST.LYON
    expect 0 script tree --list LIST.ROME l.db rome
    expect 0 script tree --list LIST.LYON l.db lyon
}

# The rights and names of the files of a tree.
rights() {
    (cd "$1" && ls -lR | awk '/^-/ { rights = $1; sub(/^.*[0-9]:[0-9][0-9] /, ""); print rights, $0 }')
}

same_tree() {
    rm -rf now
    expect 0 script tree l.db now <"LIST.$1"
    must diff -r now "$2"
    rights now >rights_now
    rights "$2" >rights_then
    must cmp rights_then rights_now
}

try_puts() {
    sed '10s/.*/ROME/' rome/source/long.c >new && cat new >rome/source/long.c
    printf '*/\n%0200d\\' 7 >>rome/source/blank.h
    printf 'zero\r\none\r\n' >"rome/source/a b/-cr*.txt"
    expect 0 script put --yes -m 'what it is for' l.db ROME LIST.ROME rome
    same_tree ROME rome
    sed '20s/.*/LYON  /' lyon/source/long.c >new && cat new >lyon/source/long.c
    printf 'new\n' >lyon/source/new.c
    expect 0 script put --c --yes l.db LYON LIST.LYON lyon source/new.c
    same_tree LYON lyon
    must grep -qx ROME lyon/source/long.c
    for site in ROME LYON; do
        folder=$(echo "$site" | tr '[:upper:]' '[:lower:]')
        sed "30s/.*/$site too/" "$folder/source/long.c" >new && cat new >"$folder/source/long.c"
    done
    expect 0 script put --yes l.db ROME LIST.ROME rome
    expect 1 answering 'no\n' script put --yes l.db LYON LIST.LYON lyon
    must grep -qx 'source/long.c:' err
    must grep -q '^A ROME.* ROME too$' err
    must [ "$(grep -c ' came after ' err)" -eq "$(grep ' came after ' err | sort -u | grep -c .)" ]
    must grep -q ' of LYON is not sent. ' err
    expect 0 answering 'yes\n' script put --yes l.db LYON LIST.LYON lyon
    same_tree LYON lyon
    sed 's/line/row/' lyon/source/long.c >new && cat new >lyon/source/long.c
    rm lyon/source/empty.h
    expect 0 answering 'show\nyes\n' script put --gone l.db LYON LIST.LYON lyon
    same_tree LYON lyon
    # shellcheck disable=SC2016 # these words are of the script
    printf '#!/bin/sh\n%s "$@"\n[ "$1" != run-at ] || kill -9 $PPID\n' "$upd" >dying && chmod +x dying
    printf 'more\n' >>lyon/source/new.c
    UPD=$work/$count/dying expect 137 script put --yes l.db LYON LIST.LYON lyon
    expect 0 script put --yes l.db LYON LIST.LYON lyon
    same_tree LYON lyon
    must [ "$("$upd" text l.db NEW | grep -c more)" -eq 1 ]
}

try_edits() {
    printf '*DECK A\nONE\nTWO\n' >run
    expect 0 "$upd" run l.db PARIS 1 quick <run
    expect 1 script edit l.db PARIS NODECK
    must grep -q 'NODECK: .*DeckUnknown' err
    expect 0 env EDITOR="sed -i -e 's/TWO/two words/'" sh -c 'echo yes | sh "$0" -m "why not" l.db PARIS A' "$root/examples/edit.sh"
    must grep -qx '\*/ why not' out
    must [ "$("$upd" text l.db A | tail -n 1)" = 'two words' ]
    # shellcheck disable=SC2016 # these words are of the editor
    printf '#!/bin/sh\nprintf "*IDENT O1\\n*DELETE A.2\\nOSLO\\n" | "$UPD" run l.db OSLO 1 quick\nsed -i s/ONE/PARIS/ "$1"\n' >editor && chmod +x editor
    expect 1 env EDITOR=./editor sh -c 'printf "yes\nno\n" | sh "$0" l.db PARIS A' "$root/examples/edit.sh"
    must grep -q '^I A.2 *O1 ' err
    expect 0 env EDITOR="sed -i -e '\$s/\$/ */'" sh -c 'echo yes | sh "$0" --list LIST.LYON l.db LYON source/run.sh "source/[r]un.sh"' "$root/examples/edit.sh"
    expect 0 script put --yes l.db LYON LIST.LYON lyon
    same_tree LYON lyon
}

# Sends a run of OSLO, by the set and with the lines that are given.
oslo() {
    oslo_number=$((oslo_number + 1))
    printf "$@" >run && "$upd" run p.db OSLO "$oslo_number" quick <run >reply || wrong=$((wrong + 1))
}

# Puts three changes of a site, while another site does so too. What is in use is tried again.
put_beside() {
    for round in 1 2 3; do
        sed "$((round * 10 + $2))s/.*/$1 $round/" "beside/$1/a.txt" >"new.$1" && cat "new.$1" >"beside/$1/a.txt"
        left=99
        while
            script put --yes beside.db "$1" "beside/LIST.$1" "beside/$1" </dev/null >"out.$1" 2>"err.$1"
            [ $? -eq 3 ] && [ "$left" -gt 0 ]
        do
            left=$((left - 1))
            sleep 1
        done
    done
}

# Two sites that put at the same time: each change is in the library and in both trees.
try_beside() {
    mkdir beside
    expect 0 "$upd" init beside.db
    awk 'BEGIN { print "*DECK A"; for (i = 1; i <= 40; i++) print "a" i }' >run
    expect 0 "$upd" run beside.db PARIS 1 quick <run
    for site in ROME LYON; do
        printf 'deck A\npath a.txt\n' >"beside/LIST.$site"
        expect 0 script tree --list "beside/LIST.$site" beside.db "beside/$site"
    done
    put_beside ROME 1 &
    put_beside LYON 5
    wait
    for site in ROME LYON; do expect 0 script put --yes beside.db "$site" "beside/LIST.$site" "beside/$site"; done
    must diff -r beside/ROME beside/LYON
    must [ "$(grep -c -e '^ROME [123]$' -e '^LYON [123]$' beside/ROME/a.txt)" -eq 6 ]
    must [ "$("$upd" text beside.db A | sed 1d | cksum)" = "$(cksum <beside/ROME/a.txt)" ]
    # shellcheck disable=SC2016 # these words are of the script
    printf '#!/bin/sh\n[ "$1" != run-at ] || { : >here; until [ -e ended ]; do sleep 1; done; }\nexec "%s" "$@"\n' "$upd" >waiting && chmod +x waiting
    echo more >>beside/ROME/a.txt
    UPD=$work/$count/waiting script put --yes beside.db ROME beside/LIST.ROME beside/ROME </dev/null >out.ROME 2>err.ROME &
    left=99
    until [ -e here ] || [ "$left" -le 0 ]; do left=$((left - 1)) && sleep 1; done
    expect 3 script put --yes beside.db ROME beside/LIST.ROME beside/ROME
    must grep -q 'another put.sh is at work' err
    : >ended && wait
    expect 0 script tree beside.db beside/now <beside/LIST.ROME
    must diff -r beside/ROME beside/now
}

# A library with a deck of 1,900 and a set of 300 lines, a tree of it, and in that an edit of all but 100 lines, which needs two runs.
make_parts() {
    rm -rf p.db p.db-wal parts LIST.P LIST.P.put && oslo_number=0
    expect 0 "$upd" init p.db
    awk 'BEGIN { print "*DECK A"; for (i = 1; i <= 1900; i++) print "a" i }' >run
    expect 0 "$upd" run p.db LYON 1 quick <run
    awk 'BEGIN { print "*IDENT B"; print "*INSERT A.1901"; for (i = 1; i <= 300; i++) print "b" i }' >run
    expect 0 "$upd" run p.db LYON 2 quick <run
    printf 'deck A\npath a.txt\n' >LIST.P
    expect 0 script tree --list LIST.P p.db parts
    awk 'NR > 100 { $0 = $0 " by LYON" } { print }' parts/a.txt >new && cat new >parts/a.txt
}

# An executable that, once it is asked for run-at the second time, does this first.
second_time() {
    # shellcheck disable=SC2016 # these words are of the script
    printf '#!/bin/sh\n[ "$1" != run-at ] || { echo >>asked; [ "$(wc -l <asked)" -ne 2 ] || { %s; } }\nexec "%s" "$@"\n' "$1" "$upd" >meddling
    chmod +x meddling && rm -f asked
}

# Each part of an edit meets what others have done since its author has seen the deck, when it begins and later.
try_parts() {
    make_parts
    oslo '*IDENT O\n*DELETE B.299\nb299 by OSLO\n'
    expect 1 script put --yes p.db LYON LIST.P parts </dev/null
    must [ "$("$upd" idents p.db | wc -l)" -eq 3 ]
    must grep -q 'O.1 came after B' err
    cat >editor <<'EOF' && chmod +x editor
#!/bin/sh
sed "102,\$s/\$/ by LYON/" "$1" >edited && cat edited >"$1"
printf "*IDENT O2\n*DELETE B.298\nOSLO\n" | "$UPD" run p.db OSLO 9 quick
EOF
    expect 1 env EDITOR=./editor sh -c 'echo yes | sh "$0" p.db LYON A' "$root/examples/edit.sh"
    must grep -q 'as runs 3 to 4 of LYON' err
    must grep -q '^I B.298 *O2 ' err
    must [ "$("$upd" idents p.db | wc -l)" -eq 4 ]
    expect 0 answering 'yes\n' script put --yes p.db LYON LIST.P parts
    same_text
    make_parts
    second_time "printf '*IDENT O\\n*DELETE B.299\\nOSLO\\n' | $upd run p.db OSLO 1 quick >reply"
    UPD=$work/$count/meddling expect 1 script put --yes p.db LYON LIST.P parts </dev/null
    must grep -q '^run 4, line 3: O.1 came after LYON31 and is deleted' err
    must grep -q 'LYON31' err
    expect 1 script put --yes p.db LYON LIST.P parts </dev/null
    expect 0 answering 'yes\nyes\n' script put --yes p.db LYON LIST.P parts
    same_text
    make_parts
    second_time 'exit 3'
    UPD=$work/$count/meddling expect 3 script put --yes p.db LYON LIST.P parts
    oslo '*IDENT O\n*DELETE B.299\nOSLO\n'
    expect 1 script put --yes p.db LYON LIST.P parts </dev/null
    expect 0 answering 'yes\nyes\n' script put --yes p.db LYON LIST.P parts
    same_text
    expect 0 script put --yes p.db LYON LIST.P parts
    same_text
    make_parts
    second_time "printf '*DECK LYON32\\n' | $upd run p.db OSLO 1 quick >reply"
    UPD=$work/$count/meddling expect 1 script put --yes p.db LYON LIST.P parts
    must grep -q 'NameTaken' err
    must grep -q '\*YANK LYON31, then remove LIST.P.put, and start' err
    must [ "$(grep -c 'send the rest' err)" -eq 0 ]
    printf '*IDENT BACK\n*YANK LYON31\n' >run
    expect 0 "$upd" run p.db LYON 5 quick <run
    rm -r LIST.P.put
    expect 0 script put --yes p.db LYON LIST.P parts
    same_text
}

same_text() {
    "$upd" text p.db A | tail -n +2 >held_text
    must cmp held_text parts/a.txt
    must [ "$(wc -l <parts/a.txt)" -eq 2200 ]
}

# New files, by their paths from FOLDER or from here, with a message, by a relative UPD. What is not in FOLDER is refused, and nothing is sent.
try_news() {
    rm -rf p.db p.db-wal parts LIST.P now && oslo_number=0
    expect 0 "$upd" init p.db
    oslo '*DECK NEW\nby OSLO\n'
    mkdir -p parts/in parts/parts && : >LIST.P && ln -s "$upd" upd
    for new in a.c in/b.c c.c parts/c.c new.c; do echo "$new" >"parts/$new"; done
    awk 'BEGIN { for (i = 1; i <= 4000; i++) print "line " i }' >parts/long.c
    for new in "$(pwd)/run" ../run parts/../run; do
        expect 1 script put --yes p.db LYON LIST.P parts a.c "$new"
        must grep -qxF "put.sh: $new is not in parts" err
    done
    must [ "$("$upd" idents p.db | wc -l)" -eq 1 ]
    UPD=./upd expect 0 script put --yes -m 'why new' p.db LYON LIST.P ./parts a.c "$(pwd)/parts/in/b.c" parts/c.c parts//new.c in/../long.c
    must grep -q 'has a deck NEW that LIST' err
    must [ "$(sed -n 's/^path //p' LIST.P | tr '\n' ' ')" = 'a.c in/b.c parts/c.c new.c long.c ' ]
    must [ "$("$upd" runs p.db | grep -c ' # why new$')" -eq 7 ]
    echo more >>parts/in/b.c
    expect 0 script put --yes p.db LYON LIST.P parts c.c
    must [ "$("$upd" text p.db B | tail -n 1)" = more ]
    expect 0 script tree p.db now <LIST.P
    must diff -r parts now
}

# Idents that are purged after a text was taken, and names that come again.
try_purges() {
    rm -rf p.db p.db-wal parts LIST.P && oslo_number=0
    expect 0 "$upd" init p.db
    oslo '*DECK A\nONE\nTWO\n'
    oslo '*DECK C\nONE\nTWO\n'
    oslo '*IDENT X\n*INSERT A.2\nold\n'
    oslo '*PURGE X\n'
    oslo '*IDENT X\n*INSERT A.2\nnew\n'
    expect 0 env EDITOR="sed -i -e 's/TWO/two/'" sh -c 'echo yes | sh "$0" p.db PARIS A' "$root/examples/edit.sh"
    oslo '*PURGE PARIS1,*\n'
    printf 'deck A\npath a.txt\ndeck C\npath c.txt\n' >LIST.P
    expect 0 script tree --list LIST.P p.db parts
    sed s/TWO/two/ parts/a.txt >new && cat new >parts/a.txt
    expect 0 answering 'yes\n' script put p.db PARIS LIST.P parts
    must [ "$("$upd" text p.db A | tail -n 1)" = two ]
    oslo '*IDENT Y\n*INSERT A.2\nold\n'
    expect 0 script put p.db PARIS LIST.P parts
    oslo '*PURGE Y\n'
    sed s/TWO/two/ parts/c.txt >new && cat new >parts/c.txt
    expect 1 answering 'yes\n' script put p.db PARIS LIST.P parts
    must [ "$(grep -c 'Y was purged' err)" -eq 1 ]
    oslo '*IDENT Y\n*INSERT A.2\nnew\n'
    expect 1 answering 'yes\n' script put p.db PARIS LIST.P parts
    sed 's/^\(since [^ ]*\) .*/\1/' LIST.P >new && cat new >LIST.P
    expect 1 answering 'yes\nyes\n' script put p.db PARIS LIST.P parts
    must grep -q 'run 3 of PARIS is accepted' err
    must grep -q 'a.txt stays as it is, since the library never had it' err
    printf '#!/bin/sh\necho x >>"$1"\necho "*PURGE PARIS3" | "$UPD" run p.db OSLO 99 quick\n' >editor && chmod +x editor
    expect 1 env EDITOR=./editor sh -c 'echo yes | sh "$0" p.db PARIS A' "$root/examples/edit.sh"
    must grep -q 'PARIS3.* was purged' err
}

# What only LIST has, as line ends and rights; decks and cards that others change or take away; and a LIST that is older than its tree.
try_decks() {
    rm -rf p.db p.db-wal parts LIST.P now && oslo_number=0
    mkdir small && printf 'a\r\nb  \nc' >small/a.c && for name in b c d e; do printf '%s\nTWO\n' "$name" >"small/$name.c"; done
    expect 0 "$upd" init p.db
    find small/. -type f | sort >names
    expect 0 script bring --c --list LIST.P p.db LYON 1 <names && cp out spool
    expect 1 answering 'small//a.c\n' script bring --c --list LIST.P p.db LYON 50
    expect 0 "$upd" spool p.db <spool
    expect 0 script tree --list LIST.P p.db parts
    printf 'a\nb\nc\n' >parts/small/a.c && chmod 755 parts/small/e.c && chmod 640 parts/small/d.c && cp -Rp parts changed && cp LIST.P LIST.OLD
    (umask 077 && script put --yes p.db LYON LIST.P parts >out 2>err) || wrong=$((wrong + 1))
    must diff -r changed parts
    must [ "$(grep -c '^mode' LIST.P)" -eq 2 ]
    expect 0 script tree p.db now <LIST.P
    must diff -r changed now
    must [ -x now/small/e.c ]
    must [ "$(ls -l now/small/d.c | cut -c 1-10)" = -rw-r----- ]
    oslo '*IDENT Y\n*YANKDECK B\n*INSERT D.2\nby OSLO\n*INSERT E.2\nby OSLO\n'
    oslo '*PURDECK C\n'
    rm parts/small/d.c && echo more >>parts/small/a.c
    expect 1 script put --gone --yes p.db LYON LIST.P parts
    must grep -q 'd.c is gone, but' err
    must cmp small/b.c parts/small/b.c
    must cmp small/c.c parts/small/c.c
    must [ "$(sed -n 2p parts/small/e.c)" = 'by OSLO' ]
    must [ "$("$upd" text p.db A | tail -n 1)" = more ]
    rm parts/small/[bc].c
    expect 1 script put --gone --yes p.db LYON LIST.P parts
    must [ "$(grep '^deck' LIST.P | tr '\n' ' ')" = 'deck A deck D deck E ' ]
    echo again >>parts/small/a.c
    expect 1 script put --yes p.db LYON LIST.OLD parts </dev/null
    must grep -q ' came after E$' err
    must [ "$("$upd" text p.db A | tail -n 1)" = more ]
    for set in X W; do
        oslo "*IDENT Z\\n*INSERT A.2\\nby Z\\n*IDENT $set\\n*INSERT E.3\\nby $set\\n"
        expect 0 answering 'yes\n' script put p.db LYON LIST.P parts
        must grep -q 'by Z' parts/small/a.c
        oslo '*PURGE Z\n'
        [ "$set" = X ] || echo last >>parts/small/a.c
        echo last >>parts/small/e.c
        expect "$([ "$set" = X ] && echo 0 || echo 1)" answering 'yes\n' script put p.db LYON LIST.P parts
        must [ "$("$upd" text p.db A | grep -c 'by Z')" -eq 0 ]
    done
    must grep -q 'cards of its deck A were purged' err
    must [ "$("$upd" text p.db E | grep -c last)" -eq 1 ]
}

# A yank takes the end of a line that was cut back, and a yank of that brings it again.
try_yanks() {
    mkdir yanks && awk 'BEGIN { for (i = 0; i < 300; i++) s = s "x"; print "a"; print s " one"; print "b" }' >yanks/a.c
    expect 0 "$upd" init yanks.db
    expect 0 answering 'yanks/a.c\n' script bring --c --list LIST.Y yanks.db LYON 1 && cp out spool
    expect 0 "$upd" spool yanks.db <spool
    expect 0 script tree --list LIST.Y yanks.db yanked
    sed 's/one$/two/' yanks/a.c >yanked/yanks/a.c
    expect 0 script put --yes yanks.db LYON LIST.Y yanked
    yanked=LYON2
    for folder in . yanked; do
        printf '*IDENT BY%s\n*YANK %s\n' "$yanked" "$yanked" >run
        expect 0 "$upd" run yanks.db "OSLO${#yanked}" 1 quick <run
        yanked=BY$yanked
        rm -rf now
        expect 0 script tree yanks.db now <LIST.Y
        must cmp "$folder/yanks/a.c" now/yanks/a.c
    done
}

# Takes the end of the last line from LIST.
open_list() {
    printf %s "$(cat v=1)" >new && mv new v=1
}

# A LIST whose name awk takes for an assignment, whose last line has no end, and for which there is no room; a tree whose name looks like an option.
try_names() {
    mkdir named && printf 'one\n' >named/a.c && printf 'two\n' >named/b.c && chmod 755 named/a.c
    expect 0 "$upd" init n.db
    expect 0 answering 'named/a.c\n' script bring --list v=1 n.db LYON 1 && cp out spool
    expect 0 "$upd" spool n.db <spool
    # shellcheck disable=SC2016 # these words are of the script
    printf '#!/bin/sh\ncase $(readlink /proc/$$/fd/1) in */full.new) head -c 3; exit 1 ;; esac\nexec %s "$@"\n' "$(command -v cat)" >bin/cat && chmod +x bin/cat
    cp v=1 full
    expect 3 script tree --list full n.db -t
    rm bin/cat
    must cmp v=1 full
    must [ ! -e full.new ]
    rm -r ./-t
    expect 0 script tree --list v=1 n.db -t </dev/null
    must grep -qx 'since A 1' v=1
    echo more >>./-t/named/a.c
    expect 0 script put --yes n.db LYON v=1 -t </dev/null
    must grep -qx 'since LYON2 2' v=1
    expect 0 env EDITOR="sed -i -e s/more/MORE/" sh -c 'echo yes | sh "$0" --list v=1 n.db LYON A' "$root/examples/edit.sh"
    must [ "$("$upd" text n.db A | tail -n 1)" = MORE ]
    open_list && cp v=1 v=2
    expect 0 answering 'named/b.c\n' script bring --list v=2 n.db LYON 9
    must [ "$(grep '^deck' v=2 | tr '\n' ' ')" = 'deck A deck B ' ]
    cp named/b.c ./-t/named
    expect 0 script put --yes n.db LYON v=1 -t named/b.c </dev/null
    must [ "$(grep '^deck' v=1 | tr '\n' ' ')" = 'deck A deck B ' ]
}

# What others have sent comes into a tree on a disk that is full, then isn't; a file that nobody may write, and one that is a link.
try_full() {
    mkdir others && for name in a b c; do printf '%s\ntwo\n' "$name" >"others/$name.c"; done
    expect 0 "$upd" init o.db
    expect 0 answering 'others/a.c\nothers/b.c\nothers/c.c\n' script bring --list LIST.O o.db LYON 1 && cp out spool
    expect 0 "$upd" spool o.db <spool
    expect 0 script tree --list LIST.O o.db filled
    chmod 444 filled/others/b.c && mv filled/others/c.c linked && ln -s ../../linked filled/others/c.c
    expect 0 script put --yes o.db LYON LIST.O filled
    printf '*IDENT O\n*INSERT A.2\nby OSLO\n*INSERT B.2\nby OSLO\n*INSERT C.2\nby OSLO\n' >run
    expect 0 "$upd" run o.db OSLO 1 quick <run
    # shellcheck disable=SC2016 # these words are of the script
    printf '#!/bin/sh\ncase ${1-} in */tree/others/a.c) head -c 3 "$1"; exit 1 ;; esac\nexec %s "$@"\n' "$(command -v cat)" >bin/cat && chmod +x bin/cat
    expect 3 script put --yes o.db LYON LIST.O filled
    rm bin/cat
    must cmp others/a.c filled/others/a.c
    must grep -q '^put.sh: others/a.c can.t be written' err
    expect 0 script put --yes o.db LYON LIST.O filled
    must [ "$("$upd" idents o.db | wc -l)" -eq 4 ]
    rm -rf now && expect 0 script tree o.db now <LIST.O
    must diff -r now filled
    must [ -L filled/others/c.c ]
    rights filled/others | grep b.c >held_rights
    must grep -q '^-r--r--r-- ' held_rights
    must [ "$(ls -A filled/others | tr '\n' ' ')" = 'a.c b.c c.c ' ]
}

# A file that became a folder.
try_folders() {
    mkdir plain && printf 'one\ntwo\n' >plain/a.c && printf 'b\n' >plain/b.h
    expect 0 "$upd" init f.db
    expect 0 answering 'plain/a.c\nplain/b.h\n' script bring --list LIST.F f.db LYON 1 && cp out spool
    expect 0 "$upd" spool f.db <spool
    expect 0 script tree --list LIST.F f.db plains
    sed 1d plain/a.c >plains/plain/a.c
    rm plains/plain/b.h && mkdir plains/plain/b.h && echo x >plains/plain/b.h/x.c
    expect 1 script put --yes f.db LYON LIST.F plains
    must grep -qx 'put.sh: plain/b.h is not a file now: --gone takes its deck B out of use' err
    expect 0 script put --gone --yes f.db LYON LIST.F plains plain/b.h/x.c
    must grep -q 'plain/a.c, the deck A: 1 line of run' err
    must grep -qx 'put.sh: plain/b.h is not a file now: its deck B goes out of use' err
    must [ "$(grep '^deck' LIST.F | tr '\n' ' ')" = 'deck A deck X ' ]
    rm -rf now
    expect 0 script tree f.db now <LIST.F
    must diff -r now plains
}

# An editor of this text.
editor() {
    { echo '#!/bin/sh' && cat; } >editor && chmod +x editor
}

# What two scripts do with one LIST, a LIST that has a path twice, and texts that are too long for one run.
try_lists() {
    mkdir listed && printf 'one\ntwo\n' >listed/a.c && printf 'b\n' >listed/b.c
    expect 0 "$upd" init i.db
    # shellcheck disable=SC2016 # these words are of another shell
    expect 3 sh -c 'ls listed/a.c | sh "$0" --list LIST.I i.db LYON 1 >/dev/full' "$root/examples/bring.sh"
    expect 0 answering 'listed/a.c\nlisted/b.c\n' script bring --list LIST.I i.db LYON 1 && cp out spool
    expect 0 "$upd" spool i.db <spool
    { cat LIST.I && printf 'deck C\npath listed/a.c\ndeck B\npath c.c\n'; } >twice
    expect 1 script tree --list twice i.db twice.tree
    must grep -q 'twice has listed/a.c as the path of two decks' err
    must grep -q 'twice has the deck B twice' err
    must [ ! -e twice.tree ]
    mkdir mine && chmod 600 LIST.I && mv LIST.I mine && ln -s mine/LIST.I LIST.I
    expect 0 script tree --list LIST.I i.db mine/tree
    must [ -L LIST.I ]
    must [ "$(ls -l mine/LIST.I | cut -c 1-10)" = -rw------- ]
    printf 'deck A\npath x\ndeck B\npath x/y\ndeck B\npath z\n' >inside
    expect 1 script tree i.db inside.tree <inside
    must grep -qx 'tree.sh: x/y, of B, would be in a folder that is a file' err
    must cmp listed/b.c inside.tree/z
    exec 8>LIST.I.lock && flock -n 8
    expect 3 script tree --list LIST.I i.db locked
    exec 8>&-
    expect 0 script tree --list LIST.I i.db noted
    editor <<'END'
printf 'one\ntwo  \n' >noted/listed/a.c
sh "$EXAMPLES/put.sh" --yes i.db LYON LIST.I noted
sed -i s/one/ONE/ "$1"
END
    export EXAMPLES="$root/examples"
    expect 3 env EDITOR=./editor sh "$EXAMPLES/edit.sh" --list LIST.I -m '' i.db LYON A
    must grep -q 'has other notes' err
    must grep -qx 'blanks 2:2' LIST.I
    expect 1 env EDITOR=rm sh -c 'echo no | sh "$0" --list LIST.I -m "" i.db LYON A' "$EXAMPLES/edit.sh"
    must grep -q 'a.c is gone$' err
    editor <<'END'
printf '*IDENT OUT\n*YANKDECK B\n' | "$UPD" run i.db OSLO 1 quick
printf 'three   \n' >>"$1"
END
    expect 1 env EDITOR=./editor sh -c 'printf "yes\nno\n" | sh "$0" --list LIST.I -m "" i.db LYON A B' "$EXAMPLES/edit.sh"
    must grep -q '^blanks .*3:3' LIST.I
    awk 'BEGIN { print "*DECK BIG"; for (i = 1; i < 1900; i++) print "big " i; print "*DECK C\nc" }' >run
    expect 0 "$upd" run i.db OSLO 2 quick <run
    editor <<'END'
{ echo '*DECK BIG' && awk 'BEGIN { for (i = 1; i < 2500; i++) print "row " i; printf "last" }'; } >"$1"
sed -i s/c/d/ "$2"
END
    expect 0 env EDITOR=./editor sh -c 'yes | sh "$0" -m "" i.db LYON BIG C' "$EXAMPLES/edit.sh"
    must [ "$("$upd" text i.db BIG | tail -n 1)" = last ]
    must [ "$("$upd" text i.db C | tail -n 1)" = d ]
    mkdir disk && mount -t tmpfs -o size=16k none disk 2>err || return 0 # only root can
    awk 'BEGIN { print "*DECK E"; for (i = 1; i < 1900; i++) print "a line of this length" }' >run
    expect 0 "$upd" run i.db OSLO 3 quick <run
    printf 'deck E\npath e.c\n' >LIST.E
    expect 3 script tree i.db disk/tree <LIST.E
    umount disk
}

# A library with the decks A and B, and of the sites ROME and LYON a LIST and a tree.
make_two() {
    rm -rf p.db p.db-wal two LIST.R LIST.L LIST.L.put r l && mkdir two && oslo_number=0
    printf 'one\ntwo\nthree\nfour\nfive\nsix\n' >two/a.txt && printf 'b one\nb two\nb three\n' >two/b.txt
    expect 0 "$upd" init p.db
    (cd two && printf 'a.txt\nb.txt\n' | script bring --c --list ../LIST.R ../p.db ZERO 1) >spool 2>err
    expect 0 "$upd" spool p.db <spool
    expect 0 script tree --list LIST.R p.db r
    cp LIST.R LIST.L && cp -R r l
}

# An executable that does something once, before a command.
meddle() {
    # shellcheck disable=SC2016 # these words are of the script
    printf '#!/bin/sh\nif [ "$1" = %s ] && [ ! -e %s ]; then : >%s; %s; fi\nexec %s "$@"\n' "$1" "$(pwd)/meddled" "$(pwd)/meddled" "$2" "$upd" >meddling
    chmod +x meddling && rm -f meddled
}

# An executable that sends a run of OSLO, once, before a command.
meddle_by_oslo() {
    oslo_number=$((oslo_number + 1))
    printf "$2" >run.oslo
    meddle "$1" "$upd run $(pwd)/p.db OSLO $oslo_number quick <$(pwd)/run.oslo >$(pwd)/reply"
}

# The put.sh of LYON, or with that executable.
put_lyon() {
    wanted=$1
    shift
    expect "$wanted" script put --yes "$@" p.db LYON LIST.L l
}

put_meddled() {
    UPD=$work/$count/meddling put_lyon "$@"
    must [ -e meddled ]
}

# Changes a file in place.
change() {
    sed "$1" "$2" >new && cat new >"$2"
}

# What is saved while put.sh works is not lost, and what it sends is what it notes.
try_saves() {
    make_two
    change s/two/TWO/ l/a.txt
    meddle correct-at 'echo saved >>l/a.txt'
    put_meddled 0
    must [ "$(tail -n 1 l/a.txt)" = saved ]
    put_lyon 0
    must [ "$("$upd" text p.db A | sed 1d | cksum)" = "$(cksum <l/a.txt)" ]
    change 's/two/&  /' l/b.txt
    meddle correct 'echo saved >>l/b.txt'
    put_meddled 0
    must [ "$(tail -n 1 l/b.txt)" = saved ]
    put_lyon 0
    must grep -qx 'b two  ' l/b.txt
    must [ "$("$upd" text p.db B | tail -n 1)" = saved ]
    change s/one/ONE/ l/b.txt
    meddle run-at 'echo later >>l/b.txt'
    put_meddled 0
    must [ ! -e l/b.txt.upd ]
    oslo '*IDENT O\n*INSERT B.4\nby OSLO\n'
    meddle run-at 'echo last >>l/b.txt'
    put_meddled 1
    must grep -qx 'by OSLO' l/b.txt.upd
    must [ "$(tail -n 1 l/b.txt)" = last ]
    mv l/b.txt.upd l/b.txt
    put_lyon 0
    oslo '*IDENT P\n*INSERT B.4\nby OSLO, too\n'
    # shellcheck disable=SC2016 # these words are of the script
    printf '#!/bin/sh\ncase $2 in */.upd.part) echo last >>l/b.txt ;; esac\nexec %s "$@"\n' "$(command -v chmod)" >bin/chmod && "$(command -v chmod)" +x bin/chmod
    put_lyon 1
    rm bin/chmod
    must grep -qx 'by OSLO, too' l/b.txt.upd
    must [ "$(tail -n 1 l/b.txt)" = last ]
    must [ "$(ls -A l | tr '\n' ' ')" = 'a.txt b.txt b.txt.upd ' ]
    printf '%081d\n' 7 >>r/a.txt
    sed '/^fit/d' LIST.R >new && cat new >LIST.R
    expect 1 script put --yes p.db ROME LIST.R r
    must grep -q '^r/a.txt:7:' err
}

# A deck that is to go out of use is changed by others: before its run is sent, and right before it is stored.
try_gone() {
    make_two
    rm l/b.txt
    meddle_by_oslo try-at '*IDENT O\n*INSERT B.3\nby OSLO\n'
    put_meddled 1 --gone
    must grep -q 'b.txt: its deck B was changed by others. Run ' err
    must grep -qx 'deck B' LIST.L
    must [ "$("$upd" text p.db B | grep -c OSLO)" -eq 1 ]
    expect 0 script tree --list LIST.L p.db l2
    meddle_by_oslo run-at '*IDENT P\n*INSERT B.3\nby OSLO\n'
    put_meddled 1 --gone
    must grep -q 'with \*YANK LYON' err
    must grep -qx 'deck B' LIST.L
    make_two
    rm l/b.txt
    put_lyon 0 --gone
    must [ "$(grep '^deck' LIST.L)" = 'deck A' ]
}

# A LIST with a path or a deck twice: nothing is sent.
try_doubles() {
    make_two
    change s/two/TWO/ l/a.txt
    oslo '*DECK A/2\nother\n'
    printf 'deck A/2\npath .//a.tx\npath t\n' >>LIST.L
    put_lyon 1
    must grep -q 'LIST.L has a.txt as the path of two decks, A and A/2: ' err
    sed 's|^path .//|path |' LIST.R >new && printf 'deck A\npath other.txt\n' | cat LIST.R - >LIST.L
    put_lyon 1
    must grep -q 'LIST.L has the deck A twice: ' err
    must [ "$("$upd" idents p.db | wc -l)" -eq 3 ]
    must grep -qx TWO l/a.txt
}

# Bytes that no card has, in a line that another site has sent: they stay in the file, and come back from LIST.
try_bytes() {
    make_two
    echo AAA >>r/a.txt
    sed 's/b two/&\\/' r/b.txt >new && cat new >r/b.txt
    expect 0 script put --yes p.db ROME LIST.R r
    put_lyon 0
    must [ "$(tail -n 1 l/a.txt)" = AAA ]
    printf 'zero\r\none\ntwo\nthree\nfour\nfive\nsix\nAAA  ' >l/a.txt
    cp l/a.txt held_text
    put_lyon 0
    must cmp held_text l/a.txt
    printf 'zero\r\none\ntwo\nthree\nfour\nfive\nsix\nAAA\r\n' >l/a.txt
    cp l/a.txt held_text
    put_lyon 0
    must cmp held_text l/a.txt
    rm -rf now && expect 0 script tree p.db now <LIST.L
    must diff -r now l
    change 's/^AAA/A\f/' l/a.txt
    cp l/a.txt held_text
    put_lyon 0
    must cmp held_text l/a.txt
    rm -rf now && expect 0 script tree p.db now <LIST.L
    must diff -r now l
}

# An accepted run that isn't noted yet, and whose deck others take out of use; and new decks, of which one is refused.
try_refusals() {
    make_two
    echo more >>l/a.txt && echo more >>l/b.txt
    meddle run-at "$upd \"\$@\"; kill -9 \$PPID; exit 0"
    put_meddled 137
    oslo '*IDENT O\n*YANKDECK A\n'
    put_lyon 1
    must grep -q 'a.txt stays as it is' err
    must [ ! -e LIST.L.put ]
    must [ "$(tail -n 1 l/b.txt)" = more ]
    put_lyon 1
    make_two
    for name in n1 n2 n3; do echo new >"l/$name.txt"; done
    meddle_by_oslo spool '*DECK N2\nby OSLO\n'
    expect 0 script put --yes p.db LYON LIST.L l n1.txt
    meddle_by_oslo spool '*DECK N3\nby OSLO\n'
    echo more >>l/a.txt
    UPD=$work/$count/meddling expect 1 script put --yes p.db LYON LIST.L l n2.txt n3.txt
    must grep -q NameTaken err
    must [ "$(sed -n 's/^path //p' LIST.L | tr '\n' ' ')" = 'a.txt b.txt n1.txt n2.txt ' ]
    echo more >>l/n2.txt
    expect 0 script put --yes p.db LYON LIST.L l n3.txt
    must [ "$("$upd" text p.db N2 | tail -n 1)" = more ]
    rm -rf now && expect 0 script tree p.db now <LIST.L
    must diff -r now l
}

# Files whose names put.sh gives, too.
try_asides() {
    make_two
    echo upd >l/a.txt.upd && echo part >l/.upd.part
    expect 0 script put --yes p.db LYON LIST.L l a.txt.upd
    echo more >>l/a.txt && echo more >>l/a.txt.upd
    put_lyon 0
    change s/one/ONE/ l/a.txt
    oslo '*IDENT O\n*INSERT A.5\nby OSLO\n'
    meddle run-at 'echo last >>l/a.txt'
    put_meddled 1
    must grep -q 'what the library has is in a.txt.upd.upd$' err
    must grep -qx 'by OSLO' l/a.txt.upd.upd
    must [ "$(tr '\n' ' ' <l/a.txt.upd)" = 'upd more ' ]
    put_lyon 1
    must grep -q '^put.sh: a.txt.upd.upd is there' err
    mv l/a.txt.upd.upd l/a.txt
    put_lyon 0
    must [ "$(cat l/.upd.part)" = part ]
}

# A LIST that is a link, or that only its owner reads; a path with blanks, written by hand; a folder for what is at work that has
# an odd name, or no room.
try_places() {
    make_two
    mkdir -p lists t && mv LIST.L lists/list && ln -s lists/list LIST.L && chmod 600 lists/list
    mv l/b.txt 'l/b  b.txt' && change 's/^path b.txt/path b  b.txt/' lists/list
    for name in a 'b  b'; do change s/three/THREE/ "l/$name.txt"; done
    TMPDIR=t put_lyon 0
    for deck in A B; do must [ "$("$upd" text p.db "$deck" | grep -c THREE)" -eq 1 ]; done
    must [ -L LIST.L ]
    must [ "$(ls -l lists/list | cut -c 1-10)" = -rw------- ]
    echo new >l/new.txt
    TMPDIR=t expect 0 script put --yes p.db LYON LIST.L l new.txt
    rm -rf now && expect 0 script tree p.db now <LIST.L
    must diff -r now l
    must [ "$(ls t | wc -l)" -eq 0 ]
    # shellcheck disable=SC2016 # these words are of the script
    printf '#!/bin/sh\n[ "${1-}" != p.db ] || exit 1\nexec %s "$@"\n' "$(command -v cat)" >bin/cat && chmod +x bin/cat
    meddle backup 'exit 3'
    put_meddled 3
    rm bin/cat
    must grep -q "can't be written, or has no room" err
    must [ "$(grep -c examine err)" -eq 0 ]
    meddle backup 'exit 3'
    put_meddled 3
    must grep -q 'examine -- ' err
}

# A LIST that notes what the library never had: its run was refused, its deck is another one by now, only the first of two runs came, or the
# library is a copy of before. The file is the last place of its text.
try_strangers() {
    for case in refused another part copy; do
        rm -rf p.db p.db-wal p.old mine theirs LIST.P LIST.Q && mkdir mine theirs && oslo_number=0
        awk -v count="$([ $case = part ] && echo 2500 || echo 2)" 'BEGIN { for (i = 1; i <= count; i++) print "mine " i }' >mine/n.c
        echo theirs >theirs/n.c && cp mine/n.c was
        expect 0 "$upd" init p.db
        echo mine/n.c >names
        expect 0 script bring --c --list LIST.P p.db LYON 1 <names && cp out spool && sed 's|path mine/|path |' LIST.P >new && cat new >LIST.P
        if [ $case = part ]; then awk '/^RUN LYON 2 / { exit } { print }' spool >first && cat first >spool; fi
        [ $case = refused ] || expect 0 "$upd" spool p.db <spool
        if [ $case = another ]; then oslo '*PURGE N\n'; fi
        if [ $case = refused ] || [ $case = another ]; then oslo '*DECK N\ntheirs\n'; fi
        if [ $case = refused ]; then expect 0 "$upd" spool p.db <spool; fi
        if [ $case = copy ]; then
            expect 0 "$upd" backup p.db p.old
            echo 'a day of work' >>mine/n.c && cp mine/n.c was
            expect 0 script put --yes p.db LYON LIST.P mine
            rm -f p.db p.db-wal && mv p.old p.db
            oslo '*IDENT T\n*INSERT N.2\ntheirs\n'
        fi
        for rights in 644 755; do
            chmod $rights mine/n.c
            expect 1 script put --yes p.db LYON LIST.P mine
            must grep -q 'the library never had it as LIST notes' err
            must cmp was mine/n.c
        done
    done
}

# What is beside LIST stays, whatever its name is; a relative TMPDIR with =; and a file in a folder that can't be searched isn't gone (root can search all).
try_neighbours() {
    rm -rf p.db p.db-wal mine LIST.P LIST.P.new own=er out.1 && mkdir -p mine/d own=er && oslo_number=0
    echo a >mine/a.c && echo b >mine/d/b.c && echo own >LIST.P.new && ln -s nowhere LIST.P.new.new
    expect 0 "$upd" init p.db
    find mine -type f | sort >names
    expect 0 env TMPDIR=own=er sh "$root/examples/bring.sh" --c --list LIST.P p.db LYON 1 <names && cp out spool
    sed 's|path mine/|path |' LIST.P >new && cat new >LIST.P
    expect 0 "$upd" spool p.db <spool
    expect 0 env TMPDIR=own=er sh "$root/examples/tree.sh" --list LIST.P p.db out.1
    must diff -r mine out.1
    echo more >>mine/a.c
    expect 0 script put --yes p.db LYON LIST.P mine
    must [ "$(cat LIST.P.new)" = own ]
    must [ -L LIST.P.new.new ]
    must [ ! -e LIST.P.new.new.new ]
    chmod 000 mine/d
    if [ "$(id -u)" -eq 0 ]; then unsearched=0; else unsearched=1; fi
    expect $unsearched script put --gone --yes p.db LYON LIST.P mine
    chmod 755 mine/d
    must [ "$(grep -c '^deck' LIST.P)" -eq 2 ]
}

try_site() {
    mkdir -p site/outbox && printf '*DECK S\nONE\n' >site/outbox/a.quick
    expect 0 script site site BERN l.db
    must grep -q '"state":"accepted"' site/replies/1.json
    exec 8>site/lock && flock -n 8
    expect 3 script site site BERN l.db
    exec 8>&-
    must grep -q 'is at work' err
}

# Tries all in a folder, with these as sh and awk.
try_tools() {
    tools="$1, $2" count=$((count + 1))
    mkdir "$work/$count" "$work/$count/bin" && cd "$work/$count" || exit 3
    printf '#!/bin/bash\nexec %s "$@"\n' "$1" >bin/sh
    printf '#!/bin/bash\nexec %s "$@"\n' "$2" >bin/awk
    chmod +x bin/sh bin/awk
    PATH=$work/$count/bin:$old_path
    try_trees
    try_puts
    try_edits
    try_beside
    try_parts
    try_news
    try_purges
    try_decks
    try_yanks
    try_names
    try_full
    try_folders
    try_lists
    try_saves
    try_gone
    try_doubles
    try_bytes
    try_refusals
    try_asides
    try_places
    try_strangers
    try_neighbours
    try_site
    PATH=$old_path
    [ -e "$work/LIST" ] || cp LIST.LYON "$work/LIST"
    must cmp "$work/LIST" LIST.LYON
    echo "$tools: tried"
}

# Whether a tool is there, and one that was named, if any was.
is_wanted() {
    tool=$1
    shift
    command -v "${tool% *}" >"$work/found" || return
    [ $# -gt 0 ] || return 0
    for named; do [ "$named" != "$tool" ] || return 0; done
    return 1
}

old_path=$PATH count=0
for shell in dash bash 'busybox sh' ksh93; do
    if is_wanted "$shell" "$@"; then try_tools "$(command -v "${shell% *}")${shell#"${shell% *}"}" "$(command -v mawk || command -v awk)"; fi
done
for awk in gawk 'busybox awk' original-awk; do
    if is_wanted "$awk" "$@"; then try_tools "$(command -v dash || command -v sh)" "$(command -v "${awk% *}")${awk#"${awk% *}"}"; fi
done
echo "$count shells and awks tried, $wrong differences"
[ "$wrong" -eq 0 ]
