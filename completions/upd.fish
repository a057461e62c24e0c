# fish completion of upd and of its scripts, to be installed as /etc/fish/completions/upd.fish, with links for the scripts
set -l commands trial init run settle spool serve serve-local compile list history blame show idents yanks page text text-at correct correct-at correct-parts try try-at run-at source runs sites backup compact examine replay migrate explain help
complete -c upd -f
complete -c upd -n "not __fish_seen_subcommand_from $commands" -a trial -d 'apply a run to an empty library'
complete -c upd -n "not __fish_seen_subcommand_from $commands" -a init -d 'make an empty library in a file'
complete -c upd -n "not __fish_seen_subcommand_from $commands" -a run -d 'send the run on standard input to a library'
complete -c upd -n "not __fish_seen_subcommand_from $commands" -a settle -d 'settle a site up to a number'
complete -c upd -n "not __fish_seen_subcommand_from $commands" -a spool -d 'send the runs of a spool to a library'
complete -c upd -n "not __fish_seen_subcommand_from $commands" -a serve -d 'serve HTTP connections'
complete -c upd -n "not __fish_seen_subcommand_from $commands" -a serve-local -d 'serve HTTP connections on a socket for its owner'
complete -c upd -n "not __fish_seen_subcommand_from $commands" -a compile -d 'write the full compile file'
complete -c upd -n "not __fish_seen_subcommand_from $commands" -a list -d 'list the cards of a deck'
complete -c upd -n "not __fish_seen_subcommand_from $commands" -a history -d 'list what is known of a card'
complete -c upd -n "not __fish_seen_subcommand_from $commands" -a blame -d 'list the cards of a deck with who switched them last'
complete -c upd -n "not __fish_seen_subcommand_from $commands" -a show -d 'show what a deck or a correction set did'
complete -c upd -n "not __fish_seen_subcommand_from $commands" -a idents -d 'list all decks and correction sets'
complete -c upd -n "not __fish_seen_subcommand_from $commands" -a yanks -d 'list the yank cards'
complete -c upd -n "not __fish_seen_subcommand_from $commands" -a page -d 'write the library as a page for a browser'
complete -c upd -n "not __fish_seen_subcommand_from $commands" -a text -d 'write the text of a deck'
complete -c upd -n "not __fish_seen_subcommand_from $commands" -a text-at -d 'write the text of a deck as of an ident'
complete -c upd -n "not __fish_seen_subcommand_from $commands" -a correct -d 'write the run that corrects decks to an edited text'
complete -c upd -n "not __fish_seen_subcommand_from $commands" -a correct-at -d 'write the run for an edited text as of an ident'
complete -c upd -n "not __fish_seen_subcommand_from $commands" -a correct-parts -d 'write the spool of runs that correct decks to an edited text'
complete -c upd -n "not __fish_seen_subcommand_from $commands" -a try -d 'write the reply that a run would get'
complete -c upd -n "not __fish_seen_subcommand_from $commands" -a try-at -d 'do the same, and warn of what others have done since an ident'
complete -c upd -n "not __fish_seen_subcommand_from $commands" -a run-at -d 'do the same, unless the run meets what others have done since an ident'
complete -c upd -n "not __fish_seen_subcommand_from $commands" -a source -d 'write the compile file of one deck'
complete -c upd -n "not __fish_seen_subcommand_from $commands" -a runs -d 'list the stored runs'
complete -c upd -n "not __fish_seen_subcommand_from $commands" -a sites -d 'list the sites with their next numbers'
complete -c upd -n "not __fish_seen_subcommand_from $commands" -a backup -d 'make a whole copy of the file of a library'
complete -c upd -n "not __fish_seen_subcommand_from $commands" -a compact -d 'make a library anew, with the same rows and no free space'
complete -c upd -n "not __fish_seen_subcommand_from $commands" -a examine -d 'say what is at a path, and whether it is a sound library'
complete -c upd -n "not __fish_seen_subcommand_from $commands" -a replay -d 'hand the stored runs in again, at an empty library, and compare'
complete -c upd -n "not __fish_seen_subcommand_from $commands" -a migrate -d 'migrate an older file to the present schema'
complete -c upd -n "not __fish_seen_subcommand_from $commands" -a explain -d 'explain a fault'
complete -c upd -n "not __fish_seen_subcommand_from $commands" -a help -d 'show the words of a command'
set -l words '(count (commandline -opc))'
complete -c upd -n "__fish_seen_subcommand_from trial; and test $words -eq 2" -a 'full quick normal'
complete -c upd -n "__fish_seen_subcommand_from run run-at; and test $words -eq 5" -a 'full quick normal'
complete -c upd -n "__fish_seen_subcommand_from correct-parts; and test $words -eq 6" -a 'full quick normal'
complete -c upd -n "__fish_seen_subcommand_from explain; and test $words -eq 2" -a 'RunLong TooManyLines BadByte LineLong BadName BadCard BadField NoIdent TextNowhere NameTaken IdentUnknown DeckUnknown CardUnknown RangeOrder DeckCard YankText YankSelf Reserved Full CallUnknown CallDepth CompileLong BadSite BadNumber BadMode RunChanged Settled NoMemory Store BadFrame CutFrame Read Write'
complete -c upd -n "__fish_seen_subcommand_from try try-at; and test $words -eq 3" -a 'full quick normal'
complete -c upd -n "__fish_seen_subcommand_from help; and test $words -eq 2" -a "$commands"
complete -c upd -n "__fish_seen_subcommand_from init run settle spool serve serve-local compile list history blame show idents yanks page text text-at correct correct-at correct-parts try try-at run-at source runs sites backup compact examine replay migrate; and test $words -eq 2" -F
complete -c upd -n "__fish_seen_subcommand_from serve-local backup compact; and test $words -eq 3" -F
complete -c upd -s h -l help -d 'show the words of a command'
complete -c upd -s V -l version -d 'show the version'

function __upd_place -d 'The place of the operand of a script that is typed'
    set -l place 1
    set -l value 0
    for word in (commandline -opc)[2..-1]
        if test $value -eq 1
            set value 0
        else if contains -- $word --list --mode --set -m
            set value 1
        else if not string match -q -- '-*' $word
            set place (math $place + 1)
        end
    end
    echo $place
end
for script in upd-bring upd-tree upd-edit upd-put
    complete -c $script -f
    complete -c $script -n 'test (__upd_place) -eq 1' -F
end
complete -c upd-bring -l c -d 'make C and other texts fit'
complete -c upd-bring -l skip -d 'leave out files that do not fit'
complete -c upd-bring -l list -r -F -d 'note what was changed'
complete -c upd-bring -s m -x -d 'what the runs are for'
complete -c upd-tree -l list -r -F -d 'make a tree to edit, and note it'
complete -c upd-edit -l mode -x -a 'full quick normal' -d 'the mode of the run'
complete -c upd-edit -l set -x -d 'the name of the set'
complete -c upd-edit -l list -r -F -d 'edit the files of this list'
complete -c upd-edit -s m -x -d 'what the run is for'
complete -c upd-put -n 'test (__upd_place) -ge 3' -F
complete -c upd-put -l c -d 'make C and other texts fit'
complete -c upd-put -l gone -d 'take the decks of files that are gone out of use'
complete -c upd-put -l yes -d 'send without asking'
complete -c upd-put -l mode -x -a 'full quick normal' -d 'the mode of the runs'
complete -c upd-put -s m -x -d 'what the runs are for'
