# Completion of `boc-view` for fish: its commands, the options of each, and files. Numbers and names of cowns are not completed.
# Written by bin/pages from bin/lib/pages.toml. Change that, and run it again.

# The command on the line, if there is one: the first word that is no option.
function __boc_view_command
    set -l words (commandline -opc)
    set -l plain (string match -v -- '-*' $words[2..-1])
    echo $plain[1]
end

# Whether it is one of these; whether there is none, where none of them is named.
function __boc_view_is
    set -l command (__boc_view_command)
    if test (count $argv) -eq 0
        test -z "$command"
    else
        test -n "$command"; and contains -- "$command" $argv
    end
end

complete -c boc-view -f
complete -c boc-view -n __boc_view_is -s V -l version -d 'Print the version'
complete -c boc-view -n 'not __boc_view_is help' -s h -l help -d 'Print help'

complete -c boc-view -n '__boc_view_is; or __boc_view_is help' -a text -d 'Print the earliest plan as text'
complete -c boc-view -n '__boc_view_is; or __boc_view_is help' -a plan -d 'Draw the earliest plan as SVG'
complete -c boc-view -n '__boc_view_is; or __boc_view_is help' -a curve -d 'Draw the speedup by number of workers as SVG'
complete -c boc-view -n '__boc_view_is; or __boc_view_is help' -a page -d 'Write a page with plan, curve, chain, costs and program'
complete -c boc-view -n '__boc_view_is; or __boc_view_is help' -a trace -d 'Write the plans as a JSON trace, for trace viewers'
complete -c boc-view -n '__boc_view_is; or __boc_view_is help' -a help -d 'Print help'

# The file that the input is read from; an edit is not completed.
complete -c boc-view -n '__boc_view_is text plan curve page trace' -F

complete -c boc-view -n '__boc_view_is text' -l cowns -d 'Show instead which behaviours hold which cown'
complete -c boc-view -n '__boc_view_is plan' -l cowns -d 'Also draw which rows hold each cown, and how many wait'
complete -c boc-view -n '__boc_view_is text' -l curve -d 'Show instead when plans for 1, 2, 4 .. workers end'
complete -c boc-view -n '__boc_view_is text' -l width -x -d 'Use 40 to 1000 columns [default: the terminal'"'"'s or 100]'
complete -c boc-view -n '__boc_view_is text plan curve page trace' -s w -l workers -x -d 'Run the program on N threads, 1 to 16 [default: 1]'
complete -c boc-view -n '__boc_view_is text plan curve page trace' -l seed -x -d 'Draw a random run from seed S; give -w of 2 or more'
complete -c boc-view -n '__boc_view_is text plan curve page trace' -l depth -x -d 'With --seed, use random priorities of depth D, 1 to 16'
complete -c boc-view -n '__boc_view_is page' -l runs -x -d 'Also show K drawn runs of a program, 1 to 1,000,000'
complete -c boc-view -n '__boc_view_is text plan curve page trace' -l timed -d 'Simulate workers by ticks: -w, else P up to 16, else 16'
complete -c boc-view -n '__boc_view_is text plan curve page trace' -s p -l p -x -d 'Show greedy plans for P workers, or up to P, 1 to 64'
complete -c boc-view -n '__boc_view_is text plan curve page trace' -l shared-reads -d 'Plan as if rows that only read a cown shared it'
complete -c boc-view -n '__boc_view_is text plan curve page trace' -l typical -d 'Give each row the median ticks of its def'
complete -c boc-view -n '__boc_view_is text plan curve page trace' -l record -r -F -d 'Take the run that FILE records; run nothing'
complete -c boc-view -n '__boc_view_is text plan curve page trace' -l names -r -F -d 'Read the names of rows and cowns from FILE'
