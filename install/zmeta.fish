# fish completion for zmeta

# The options that have a value.
set -g __zmeta_valued --connect --patience --within --only --title --author --subject --isbn --issn --year --any \
    --query --records --elements --syntax --heading --save --trace

# The words before the cursor that are no options, the command first.
function __zmeta_words
    set -l words (commandline -opc)
    set -e words[1]
    set -l ended no
    set -l skip no
    for word in $words
        if test $skip = yes
            set skip no
        else if test $ended = yes
            echo -- $word
        else
            switch $word
                case --
                    set ended yes
                case $__zmeta_valued
                    set skip yes
                case '-?*'
                case '*'
                    echo -- $word
            end
        end
    end
end

# Whether the command is one of these.
function __zmeta_in
    set -l words (__zmeta_words)
    set -q words[1]; and contains -- $words[1] $argv
end

# Whether the word that is typed has this number behind the command, from 1, and the command is one of the others.
function __zmeta_at
    set -l words (__zmeta_words)
    test (count $words) = $argv[1]; and contains -- $words[1] $argv[2..-1]
end

# Whether no word before the cursor is one of these options; not counted is one whose value is typed.
function __zmeta_lacks
    set -l words (commandline -opc)
    if contains -- "$words[-1]" $__zmeta_valued
        set -e words[-1]
    end
    for option in $argv
        string match -qr -- "^$option(=|\$)" $words; and return 1
    end
    return 0
end

# Whether no command stands there yet.
function __zmeta_first
    test (count (commandline -opc)) = 1
end

complete -c zmeta -f
complete -c zmeta -n __zmeta_first -a ask -d 'Asks library catalogues'
complete -c zmeta -n __zmeta_first -a replay -d 'Prints again what ask printed, from its trace'
complete -c zmeta -n __zmeta_first -a catalogues \
    -d 'Shows what a file of catalogues says, and every mistake of it'
complete -c zmeta -n __zmeta_first -a run -d 'Runs searches against catalogues in memory'
complete -c zmeta -n __zmeta_first -a loop \
    -d 'Runs searches against catalogues in memory, over this machine\'s network'
complete -c zmeta -n __zmeta_first -a join -d 'Puts together what searches of the same catalogues brought'
complete -c zmeta -n __zmeta_first -a new \
    -d 'Shows which records are new, changed or gone between two searches'
complete -c zmeta -n __zmeta_first -a records -d 'Writes the records that searches of the same catalogues brought'
complete -c zmeta -n __zmeta_first -a serve -d 'Serves a catalogue in memory to other programs'
complete -c zmeta -n __zmeta_first -a show -d 'Shows what recorded Z39.50 messages say'
complete -c zmeta -n __zmeta_first -a pqf -d 'Shows how a query is understood, and how it goes out'
complete -c zmeta -n __zmeta_first -a help -d 'Print this message or the help of the given subcommand(s)'
complete -c zmeta -n '__zmeta_at 1 help' -a 'ask replay catalogues run loop join new records serve show pqf help'

complete -c zmeta -n 'not __zmeta_in help' -s h -l help -d 'Print help'
complete -c zmeta -n __zmeta_first -s V -l version -d 'Print version'
complete -c zmeta -n '__zmeta_in ask; and __zmeta_lacks --at-once' -l at-once \
    -d 'Asks all catalogues at once, and not one after the other'
complete -c zmeta -n '__zmeta_in ask; and __zmeta_lacks --connect' -l connect -x \
    -d 'Gives up a catalogue that takes so long to connect; else as --patience says'
complete -c zmeta -n '__zmeta_in ask; and __zmeta_lacks --patience' -l patience -x \
    -d 'Gives up a catalogue that is silent for so long, or not connected; else 30'
complete -c zmeta -n '__zmeta_in ask; and __zmeta_lacks --within' -l within -x \
    -d 'Gives up each catalogue that is not done within so many seconds of the start'
complete -c zmeta -n '__zmeta_in ask; and __zmeta_lacks -4 --ipv4 -6 --ipv6' -s 4 -l ipv4 \
    -d 'Connects to addresses of IPv4 alone'
complete -c zmeta -n '__zmeta_in ask; and __zmeta_lacks -4 --ipv4 -6 --ipv6' -s 6 -l ipv6 \
    -d 'Connects to addresses of IPv6 alone'
complete -c zmeta -n '__zmeta_in ask' -l only -x \
    -d 'Asks just the question of this name; may be given several times'
complete -c zmeta -n '__zmeta_in ask catalogues run loop pqf; and __zmeta_lacks --query' -l title -x \
    -d 'Asks every catalogue for this in a title; may be given several times, and all terms must match'
complete -c zmeta -n '__zmeta_in ask catalogues run loop pqf; and __zmeta_lacks --query' -l author -x \
    -d 'Asks every catalogue for this author; may be given several times'
complete -c zmeta -n '__zmeta_in ask catalogues run loop pqf; and __zmeta_lacks --query' -l subject -x \
    -d 'Asks every catalogue for this subject; may be given several times'
complete -c zmeta -n '__zmeta_in ask catalogues run loop pqf; and __zmeta_lacks --query' -l isbn -x \
    -d 'Asks every catalogue for this ISBN; may be given several times'
complete -c zmeta -n '__zmeta_in ask catalogues run loop pqf; and __zmeta_lacks --query' -l issn -x \
    -d 'Asks every catalogue for this ISSN; may be given several times'
complete -c zmeta -n '__zmeta_in ask catalogues run loop pqf; and __zmeta_lacks --query' -l year -x \
    -d 'Asks every catalogue for what was published in this year, or in years as 1980-1985, 1980- or -1985'
complete -c zmeta -n '__zmeta_in ask catalogues run loop pqf; and __zmeta_lacks --query' -l any -x \
    -d 'Asks every catalogue for this anywhere in a record; may be given several times'
complete -c zmeta -l query -x \
    -n '__zmeta_in ask catalogues run loop; and __zmeta_lacks --query --title --author --subject --isbn --issn --year --any' \
    -d 'Asks every catalogue this query (PQF), in place of the file\'s'
complete -c zmeta -n '__zmeta_in ask catalogues run loop; and __zmeta_lacks --records' -l records -x \
    -d 'Asks every catalogue for these records: a number, or positions as 1-3,10-12'
complete -c zmeta -n '__zmeta_in ask run loop; and __zmeta_lacks --elements' -l elements -x -a 'F B' \
    -d 'Asks every catalogue for records of this element set, as F (full) or B (brief)'
complete -c zmeta -n '__zmeta_in ask catalogues run loop; and __zmeta_lacks --syntax' -l syntax -x \
    -a 'marc21 unimarc xml sutrs opac grs1' \
    -d 'Asks every catalogue for records of this syntax: a name as marc21, or an OID'
complete -c zmeta -n '__zmeta_in ask replay run loop join new; and __zmeta_lacks --titles --fields --json --hex --html' -l titles \
    -d 'Prints years and titles, to be read, in place of the list'
complete -c zmeta -n '__zmeta_in ask replay run loop join new; and __zmeta_lacks --titles --fields --json --hex --html' -l fields \
    -d 'Prints what --titles prints, and below each row the fields of its record'
complete -c zmeta -n '__zmeta_in ask replay run loop join new; and __zmeta_lacks --titles --fields --json --hex --html' -l json \
    -d 'Prints a JSON object a line, for programs, in place of the list'
complete -c zmeta -n '__zmeta_in ask replay run loop join new; and __zmeta_lacks --titles --fields --json --hex --html' -l hex \
    -d 'Prints the octets of records in hexadecimal'
complete -c zmeta -n '__zmeta_in ask replay run loop join new; and __zmeta_lacks --titles --fields --json --hex --html' -l html \
    -d 'Prints a page for a browser (HTML) in place of the list'
complete -c zmeta -n '__zmeta_in ask replay run loop join new; and __zmeta_lacks --heading' -l heading -x \
    -d 'Is the heading of the page that --html prints'
complete -c zmeta -n '__zmeta_in ask replay run loop join; and __zmeta_lacks --save' -l save -r -F \
    -d 'Saves what was brought, in the file OUT'
complete -c zmeta -n '__zmeta_in ask; and __zmeta_lacks --trace' -l trace -r -F \
    -d 'Writes all that happens, with its time, in the file TRACE while it happens'
complete -c zmeta -n '__zmeta_in show; and __zmeta_lacks --trace' -l trace -r -F \
    -d 'Shows the messages of the file TRACE, which ask --trace wrote, with their times'
complete -c zmeta -n '__zmeta_in show' -l only -x \
    -d 'Shows just what was said with this catalogue; may be given several times'
complete -c zmeta -n '__zmeta_in catalogues; and __zmeta_lacks --world --toml' -l world \
    -d 'Prints the world file of what asking these catalogues asks, with --query, or --title and its like'
complete -c zmeta -n '__zmeta_in catalogues; and __zmeta_lacks --world --toml' -l toml \
    -d 'Prints a world file as a file of catalogues'
complete -c zmeta -n '__zmeta_in join; and __zmeta_lacks --quiet --titles --fields --json --hex --html' -l quiet \
    -d 'Prints no list: merges the files piece by piece, whatever their size'
complete -c zmeta -n '__zmeta_in records; and __zmeta_lacks --new' -l new -r -F \
    -d 'Writes just the records that are new or changed since the saved file OLD'
complete -c zmeta -n '__zmeta_in records' -l only -x \
    -d 'Writes just the records of this catalogue; may be given several times'
complete -c zmeta -n '__zmeta_in records; and __zmeta_lacks --syntax' -l syntax -x \
    -a 'marc21 unimarc xml sutrs opac grs1' \
    -d 'Writes just the records of this syntax: a name as marc21, or an OID'
complete -c zmeta -n '__zmeta_in records; and __zmeta_lacks --conflicts' -l conflicts \
    -d 'Writes all records of a position for which several are known'
complete -c zmeta -l explain \
    -n '__zmeta_in ask replay catalogues run loop join new records serve show pqf; and __zmeta_lacks --explain' \
    -d 'Says below each fault, in words, what is wrong and what to write; terminals get that without it'

complete -c zmeta -n '__zmeta_at 1 ask replay catalogues run loop join new records' -F
complete -c zmeta -n '__zmeta_at 2 new' -F
complete -c zmeta -n '__zmeta_in join records; and not __zmeta_at 1 join records' -F
complete -c zmeta -n '__zmeta_at 3 serve' -F
