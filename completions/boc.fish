# Completion of `boc` for fish: its commands, the options of each, and files. Numbers and names of cowns are not completed.
# Written by bin/pages from bin/lib/pages.toml. Change that, and run it again.

# The command on the line, if there is one: the first word that is no option.
function __boc_command
    set -l words (commandline -opc)
    set -l plain (string match -v -- '-*' $words[2..-1])
    echo $plain[1]
end

# Whether it is one of these; whether there is none, where none of them is named.
function __boc_is
    set -l command (__boc_command)
    if test (count $argv) -eq 0
        test -z "$command"
    else
        test -n "$command"; and contains -- "$command" $argv
    end
end

complete -c boc -f
complete -c boc -n __boc_is -s V -l version -d 'Print the version'
complete -c boc -n 'not __boc_is help' -s h -l help -d 'Print help'

complete -c boc -n '__boc_is; or __boc_is help' -a values -d 'Run a program serially and print the values of its cowns'
complete -c boc -n '__boc_is; or __boc_is help' -a check -d 'Check that the record of a run keeps the rules'
complete -c boc -n '__boc_is; or __boc_is help' -a cut -d 'Cut a record out of a long or unfinished stream of lines'
complete -c boc -n '__boc_is; or __boc_is help' -a run -d 'Run a program on threads and print the record of the run'
complete -c boc -n '__boc_is; or __boc_is help' -a profile -d 'Print the work, span, chain and plan of a run'
complete -c boc -n '__boc_is; or __boc_is help' -a time -d 'Run a program on threads and print the profile of the run'
complete -c boc -n '__boc_is; or __boc_is help' -a whatif -d 'Profile a run with ticks, spawns or cowns changed'
complete -c boc -n '__boc_is; or __boc_is help' -a curve -d 'Print when plans for 1, 2, 3 .. workers end'
complete -c boc -n '__boc_is; or __boc_is help' -a sweep -d 'Print the span with each row, cown or spawn changed in turn'
complete -c boc -n '__boc_is; or __boc_is help' -a why -d 'Show the critical path of a run and what some changes gain'
complete -c boc -n '__boc_is; or __boc_is help' -a cowns -d 'Show how long cowns are held and whether they limit a run'
complete -c boc -n '__boc_is; or __boc_is help' -a compare -d 'Show what has changed from one run to another'
complete -c boc -n '__boc_is; or __boc_is help' -a outcomes -d 'Count the final states of random runs, or find all of them'
complete -c boc -n '__boc_is; or __boc_is help' -a help -d 'Print help'

# The file that the input is read from; an edit is not completed.
complete -c boc -n '__boc_is values check run profile time whatif curve sweep why cowns compare outcomes' -F

complete -c boc -n '__boc_is run profile time whatif curve sweep why cowns compare' -s w -l workers -x -d 'Run the program on N threads, 1 to 16 [default: 1]'
complete -c boc -n '__boc_is outcomes' -s w -l workers -x -d 'Draw runs of N workers, 1 to 16 [default: 4]'
complete -c boc -n '__boc_is run profile time whatif curve sweep why cowns compare' -l seed -x -d 'Draw a random run from seed S; give -w of 2 or more'
complete -c boc -n '__boc_is outcomes' -l seed -x -d 'Draw the first run with S, the next with S + 1 [default: 0]'
complete -c boc -n '__boc_is run profile time whatif curve sweep why cowns compare' -l depth -x -d 'With --seed, use random priorities of depth D, 1 to 16'
complete -c boc -n '__boc_is outcomes' -l depth -x -d 'Use random priorities of depth D, 1 to 16'
complete -c boc -n '__boc_is run profile time whatif curve sweep why cowns compare' -l timed -d 'Simulate workers by ticks: -w, else P up to 16, else 16'
complete -c boc -n '__boc_is why compare' -l runs -x -d 'Draw K runs of a program instead of one, 1 to 1,000,000'
complete -c boc -n '__boc_is outcomes' -l runs -x -d 'Draw K runs, 1 to 1,000,000 [default: 1000]'
complete -c boc -n '__boc_is profile time whatif' -s p -l p -x -d 'Also print the greedy plan for P workers, 1 to 64'
complete -c boc -n '__boc_is curve' -s p -l p -x -d 'Go up to P workers, 1 to 64 [default: 64]'
complete -c boc -n '__boc_is sweep' -s p -l p -x -d 'Print ends of greedy plans for P workers, 1 to 64'
complete -c boc -n '__boc_is why cowns' -s p -l p -x -d 'Judge by the greedy plan for P workers, 1 to 64'
complete -c boc -n '__boc_is compare' -s p -l p -x -d 'Also compare the greedy plans for P workers, 1 to 64'
complete -c boc -n '__boc_is profile time whatif curve sweep why cowns compare' -l shared-reads -d 'Plan as if rows that only read a cown shared it'
complete -c boc -n '__boc_is profile whatif curve sweep why cowns compare' -l typical -d 'Give each row the median ticks of its def'
complete -c boc -n '__boc_is profile time whatif' -l no-plan -d 'Do not print the rows of plans, nor of a timed run'
complete -c boc -n '__boc_is whatif' -l short -d 'Print only work, span and chain, before and after'
complete -c boc -n '__boc_is whatif' -l without -x -d 'Leave out a cown, or an array; may be given repeatedly'
complete -c boc -n '__boc_is whatif' -l early -x -d 'Have a def spawn early; may be given repeatedly'
complete -c boc -n '__boc_is cut' -l from -x -d 'Begin at spawn RANK, counted from 0 [default: 0]'
complete -c boc -n '__boc_is cut' -l rows -x -d 'Take at most N spawned rows, 1 to 65,535'
complete -c boc -n '__boc_is cut' -l tiles -x -d 'Print where to cut into K windows, 1 to 65,535'
complete -c boc -n '__boc_is cut' -l out-names -r -F -d 'Write names for the window to FILE'
complete -c boc -n '__boc_is sweep' -l cowns -d 'Leave out each cown in turn; do not lower rows'
complete -c boc -n '__boc_is sweep' -l spawns -d 'Spawn each row as early as it can be; do not lower it'
complete -c boc -n '__boc_is sweep' -l best -x -d 'Print the K best lines, 1 to 65,535, with their gain'
complete -c boc -n '__boc_is cowns' -l top -x -d 'Print only the first K cowns, 1 to 256'
complete -c boc -n '__boc_is why' -l all -d 'Print every row of the chain; do not fold rows'
complete -c boc -n '__boc_is outcomes' -l all -d 'Draw nothing: search for all final states'
complete -c boc -n '__boc_is outcomes' -l most -x -d 'With --all, look at 1 to 100,000,000 [default: 1000000]'
complete -c boc -n '__boc_is outcomes' -l end -x -d 'With --all, print the record of a run to end K'
complete -c boc -n '__boc_is why' -l then -x -d 'Make the best change, the best on top, .. K times, 1 to 5'
complete -c boc -n '__boc_is values profile whatif curve sweep why cowns' -l record -r -F -d 'Take the run that FILE records; run nothing'
complete -c boc -n '__boc_is check whatif' -l program -r -F -d 'Read the program of the recorded run from FILE'
complete -c boc -n '__boc_is cut' -l names -r -F -d 'Read names for the stream from FILE'
complete -c boc -n '__boc_is whatif sweep why cowns' -l names -r -F -d 'Read the names of rows and cowns from FILE'
complete -c boc -n '__boc_is compare' -l names -r -F -d 'Read the names of rows and cowns of both from FILE'
complete -c boc -n '__boc_is compare' -l names-a -r -F -d 'Read those of BEFORE from FILE'
complete -c boc -n '__boc_is compare' -l names-b -r -F -d 'Read those of AFTER from FILE'
complete -c boc -n '__boc_is values run profile time why cowns compare' -l quiet -d 'Print no notes, such as on rows ended by a fault'
complete -c boc -n '__boc_is cut' -l quiet -d 'Print no notes on what was left out'
