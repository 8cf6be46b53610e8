# Completion of camac and of the other commands for fish.

# Whether the word that is completed is at this place behind one of these commands.
function __camac_at -a place
    set -l words (commandline -opc)
    test (count $words) -eq (math $place + 1); and contains -- $words[2] $argv[2..]
end

complete -c camac -n __fish_use_subcommand -f
complete -c camac -n __fish_use_subcommand -a plan -d 'Lists what a plan says'
complete -c camac -n __fish_use_subcommand -a check -d 'Accepts a script with its bounds, or refuses it with a rule and a line'
complete -c camac -n __fish_use_subcommand -a explain -d 'Says where and why a plan or script is refused, and how to fix it'
complete -c camac -n __fish_use_subcommand -a bounds -d 'Prints the headings of a script with the least numbers that are accepted'
complete -c camac -n __fish_use_subcommand -a costs -d 'Prints the share of each statement in the bounds of an accepted script'
complete -c camac -n __fish_use_subcommand -a tell -d 'Prints what check and costs print with all places, or each refusal explained'
complete -c camac -n __fish_use_subcommand -a response -d 'Prints the most cycles from each look-at-me to the end of its service'
complete -c camac -n __fish_use_subcommand -a run -d 'Plays an accepted script against a list of answers, and writes its events'
complete -c camac -n __fish_use_subcommand -a drive -d 'Runs an accepted script live: asks for each operation, and reads its answer'
complete -c camac -n __fish_use_subcommand -a events -d 'Lists an event file'
complete -c camac -n __fish_use_subcommand -a help -d 'Print this message or the help of the given subcommand(s)'
complete -c camac -n '__fish_seen_subcommand_from plan' -l commands -d 'Lists the commands of each type, too'
complete -c camac -n '__fish_seen_subcommand_from explain' -l at -d 'Prints what is known before the statement there' -x
complete -c camac -n '__fish_seen_subcommand_from explain' -l turn -d "The turn of the 'each' around it that is meant" -x
complete -c camac -n '__fish_seen_subcommand_from explain' -l bounds -d 'Explains what bounds refuses'
complete -c camac -n '__fish_seen_subcommand_from response' -l every -d 'Its look-at-mes come at least this many cycles apart' -x
complete -c camac -n '__fish_seen_subcommand_from response' -l within -d 'Asks whether it has ended this many cycles after its look-at-me' -x
complete -c camac -s h -l help -d 'Print help'
complete -c camac -n __fish_use_subcommand -s V -l version -d 'Print version'

complete -c camac -n '__camac_at 1 help; or __camac_at 2 help' -f
complete -c camac -n '__camac_at 1 help' -a 'plan check explain bounds costs tell response run drive events help'
complete -c camac -n '__camac_at 1 plan check explain bounds costs tell response run drive' -a @sample -d 'the built-in plan'
complete -c camac -n '__camac_at 1 plan check explain bounds costs tell response run events; or __camac_at 2 check explain bounds costs tell response run; or __camac_at 3 run' -a @in -d 'standard input'

complete -c camac-check -s h -l help -d 'Print help'
complete -c camac-check -l version -d 'whether what judges is proved'
complete -c camac-check -l format -x -a 'text json github sarif' -d 'what is printed'
complete -c camac-check -l json -d '--format json'
complete -c camac-check -l strict -d 'a warning is status 1, too'
complete -c camac-check -l keeps -d 'proposes what the loops of a refused script need'
complete -c camac-check -l write -d 'first puts the least headings into each script; with --keeps what loops need, too'
complete -c camac-check -n 'test (count (commandline -opc)) -eq 1' -a @sample -d 'the built-in plan'

complete -c camac-fmt -s h -l help -d 'Print help'
complete -c camac-fmt -l check -d 'writes nothing, and names the scripts whose layout is another one'

complete -c camac-lsp -f
complete -c camac-lsp -s h -l help -d 'Print help'

complete -c camac-report -s h -l help -d 'Print help'
complete -c camac-report -l every -x -d 'how soon a module calls again: SERVICE=CYCLES'
complete -c camac-report -l write-record -r -F -d 'a file for the record of the run'
complete -c camac-report -l survey -r -F -d 'what camac-survey found'
complete -c camac-report -l words -r -F -d 'what the words of events are'
complete -c camac-report -l pair -x -d 'two numbers of an event against each other: ACROSS UP'
complete -c camac-report -l gate -x -d 'only events in which NAME has such a number: NAME LOW..HIGH'
complete -c camac-report -l region -x -d 'measures a region of a spectrum: NAME LOW..HIGH'
complete -c camac-report -l over -r -F -d 'another run, whose spectra are drawn over these'
complete -c camac-report -l bins -x -d 'the most bins of a spectrum, and of a pair'
complete -c camac-report -l overwrite -d 'replaces a file that another command made'
complete -c camac-report -s o -l out -r -F -d 'the file to write'
complete -c camac-report -n 'test (count (commandline -opc)) -eq 1' -a @sample -d 'the built-in plan'

complete -c camac-survey -s h -l help -d 'Print help'
complete -c camac-survey -l driver -r -F -a mock -d 'the driver of the crates'
complete -c camac-survey -l only -x -d 'sends these functions alone: F8,F27'
complete -c camac-survey -l also -x -d 'sends these functions, too: F2,F10'
complete -c camac-survey -l empty -d 'asks the stations without a module, too'
complete -c camac-survey -l wiring -d 'raises each look-at-me, and compares the bits that come'
complete -c camac-survey -l driver-test -x -d 'tests the driver at a register: CRATE,STATION,SUB_ADDRESS'
complete -c camac-survey -l keep -r -F -d 'a folder for the scripts and their answers'
complete -c camac-survey -l overwrite -d 'replaces a file that another command made'
complete -c camac-survey -s o -l out -r -F -d 'a file of what was found'
complete -c camac-survey -n 'test (count (commandline -opc)) -eq 1' -a @sample -d 'the built-in plan'
