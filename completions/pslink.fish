# Completion of pslink for fish. Its commands and options are written by make_completions.py.

# so many words stand before the one that is completed, pslink the first of them
function __pslink_has_words
    test (count (commandline -opc)) -eq $argv[1]
end

# the command is one of these
function __pslink_runs
    set -l words (commandline -opc)
    contains -- "$words[2]" $argv
end

# no names of files before the command
complete -c pslink -f
complete -c pslink -n "__pslink_has_words 1" -a link -d 'Links a host with the units that it uses, and writes the linked file'
complete -c pslink -n "__pslink_has_words 1" -a map -d 'Prints where a link would put each segment and private variable, and writes no file'
complete -c pslink -n "__pslink_has_words 1" -a show -d 'Prints the segments of one code file and the link information of each'
complete -c pslink -n "__pslink_has_words 1" -a check -d 'Says in words whether the files link, what is wrong and what looks wrong'
complete -c pslink -n "__pslink_has_words 1" -a list -d 'Prints a line of each file and of each of its segments, made for grep'
complete -c pslink -n "__pslink_has_words 1" -a help -d 'Print this message or the help of the given subcommand(s)'
complete -c pslink -n "__pslink_has_words 1" -s V -l version -d 'Print version'
complete -c pslink -n "not __pslink_runs help" -s h -l help -d 'Print help'
complete -c pslink -n "__pslink_runs help; and __pslink_has_words 2" -a 'link map show check list help'
complete -c pslink -n "__pslink_runs link map show check list" -F
complete -c pslink -n "__pslink_runs link" -s o -l output -r -F -d 'The code file to write, which is no file of the link'
complete -c pslink -n "__pslink_runs link" -l map -r -F -d 'Writes the map of the link to FILE, too'
complete -c pslink -n "__pslink_runs link" -l references -d 'Writes to FILE what the link stores at each place, too'
complete -c pslink -n "__pslink_runs link" -l json -d 'Prints the summary and writes the map as JSON documents'
complete -c pslink -n "__pslink_runs link" -s q -l quiet -d 'Prints no summary'
complete -c pslink -n "__pslink_runs map" -l references -d 'Prints what the link stores at each place, too'
complete -c pslink -n "__pslink_runs map" -l json -d 'Prints the same values as one JSON document'
complete -c pslink -n "__pslink_runs show" -l json -d 'Prints the same values as one JSON document'
complete -c pslink -n "__pslink_runs check" -l strict -d 'Ends with status 1 on a warning too'
complete -c pslink -n "__pslink_runs check" -l unit -d 'Lists each file, and what refuses each of its units by itself'
complete -c pslink -n "__pslink_runs check" -l json -d 'Prints the same values as one JSON document'
complete -c pslink -n "__pslink_runs list" -l json -d 'Prints the same values as one JSON document'
