# dispatch.fish: what fish completes behind `dispatch`: commands, options, fixed values, and files where one is taken.

# Whether this command is named, or with a number, whether its word of this number is the one that is written.
function __dispatch_in -a command number
    set -l words (commandline -opc)
    if test "$words[2]" = --verbose
        set -e words[2]
    end
    test "$words[2]" = $command; or return 1
    test -n "$number"; or return 0
    set -l at 1
    set -l option
    for word in $words[3..]
        if test -n "$option"
            set option
            continue
        end
        switch $word
            case -h --help --trace --clock --old --dry-run --strict '--*=*'
            case '--*'
                set option $word
            case '*'
                set at (math $at + 1)
        end
    end
    test $at -eq $number
end

complete -c dispatch -f
complete -c dispatch -s h -l help -d 'Print help'
complete -c dispatch -n __fish_use_subcommand -s V -l version -d 'Print version'
complete -c dispatch -n __fish_use_subcommand -l verbose -d 'Tells also where a fault is'
complete -c dispatch -n __fish_use_subcommand -a match -d 'Answers an order with the lesser of two tables'
complete -c dispatch -n __fish_use_subcommand -a hours -d 'Tells the hours and cycles of a gas day'
complete -c dispatch -n __fish_use_subcommand -a simulate -d "Makes the steps of a script at both operators' desks"
complete -c dispatch -n __fish_use_subcommand -a office -d "Runs one operator's office, a request a line"
complete -c dispatch -n __fish_use_subcommand -a report -d 'Tells what a side holds after a script, or in its book'
complete -c dispatch -n __fish_use_subcommand -a explain -d 'Tells what one quantity comes from, after a script or in a book'
complete -c dispatch -n __fish_use_subcommand -a page -d 'Writes a gas day of a side as an HTML page'
complete -c dispatch -n __fish_use_subcommand -a audit -d "Compares both operators' books"
complete -c dispatch -n __fish_use_subcommand -a book -d 'Tells what a book in a file is'
complete -c dispatch -n __fish_use_subcommand -a serve -d 'Runs both offices by a script, each with sessions of its own'
complete -c dispatch -n __fish_use_subcommand -a help -d 'Print this message or the help of the given subcommand(s)'

complete -c dispatch -n '__dispatch_in simulate' -l trace -d 'Tells also what moved in each step'
complete -c dispatch -n '__dispatch_in simulate' -l strict -d 'Exit status 1 where anything is refused'

complete -c dispatch -n '__dispatch_in office 1' -a 'I M'
complete -c dispatch -n '__dispatch_in office' -l book -r -F -d "The side's book, which is made where it is not there"
complete -c dispatch -n '__dispatch_in office' -l point -x -d 'The point that the office is of'
complete -c dispatch -n '__dispatch_in office' -l clock -d "Closes what is due by the machine's clock"
complete -c dispatch -n '__dispatch_in office' -l wait -x -d 'How long a book in use is tried again, 0 to 3600'
complete -c dispatch -n '__dispatch_in office' -l strict -d 'Exit status 1 where anything is refused'

complete -c dispatch -n '__dispatch_in report 1' -a 'open confirmed refused schedule cut changes'
complete -c dispatch -n '__dispatch_in report 2' -a 'I M'
complete -c dispatch -n '__dispatch_in report' -l format -x -a 'text csv json' -d 'text, csv or json; text where none is named'
complete -c dispatch -n '__dispatch_in report' -l day -x -d 'The gas day of a schedule, of cuts or of changes'
complete -c dispatch -n '__dispatch_in report' -l portfolio -x -d 'The portfolio, at either operator, of these'
complete -c dispatch -n '__dispatch_in report' -l book -r -F -d "The side's book, in place of a script"
complete -c dispatch -n '__dispatch_in report' -l point -x -d 'The point that the book is of'

complete -c dispatch -n '__dispatch_in explain 1' -a 'I M'
complete -c dispatch -n '__dispatch_in explain 4' -a 'IM MI'
complete -c dispatch -n '__dispatch_in explain' -l format -x -a 'text json' -d 'text or json; text where none is named'
complete -c dispatch -n '__dispatch_in explain' -l book -r -F -d "The side's book, in place of a script"
complete -c dispatch -n '__dispatch_in explain' -l point -x -d 'The point that the book is of'

complete -c dispatch -n '__dispatch_in page 1' -a 'I M'
complete -c dispatch -n '__dispatch_in page' -l book -r -F -d "The side's book, in place of a script"
complete -c dispatch -n '__dispatch_in page' -l point -x -d 'The point that the book is of'

complete -c dispatch -n '__dispatch_in audit' -l initiating -r -F -d "The initiating operator's book"
complete -c dispatch -n '__dispatch_in audit' -l matching -r -F -d "The matching operator's book"
complete -c dispatch -n '__dispatch_in audit' -l point -x -d 'The point that the books are of'
complete -c dispatch -n '__dispatch_in audit' -l format -x -a 'text json' -d 'text or json; text where none is named'

complete -c dispatch -n '__dispatch_in book 1' -F
complete -c dispatch -n '__dispatch_in book' -l expect -x -d 'The number of its first facts, and their digest'

complete -c dispatch -n '__dispatch_in serve' -l sessions -x -d 'The sessions of each office'
complete -c dispatch -n '__dispatch_in serve' -l books -x -a '(__fish_complete_directories)' -d "The sides' books, PREFIX-I.db and PREFIX-M.db"
complete -c dispatch -n '__dispatch_in serve' -l wait -x -d 'How long a book in use is tried again, 0 to 3600'
complete -c dispatch -n '__dispatch_in serve' -l old -d 'Takes books that are there, and makes none'
complete -c dispatch -n '__dispatch_in serve' -l dry-run -d 'Leaves the books as they are, and runs over copies'
complete -c dispatch -n '__dispatch_in serve' -l strict -d 'Exit status 1 where anything is refused'

complete -c dispatch -n '__dispatch_in help 1' -a 'match hours simulate office report explain page audit book serve help'
