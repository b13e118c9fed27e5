# Completes the words of phpsa in fish.

function __phpsa_is
    set -l words (commandline -opc)
    test (count $words) -gt 1; and contains -- $words[2] $argv
end

complete -c phpsa -n __fish_use_subcommand -f -a check -d 'decides a script with all that it includes'
complete -c phpsa -n __fish_use_subcommand -f -a page -d 'says of one page whether it is valid'
complete -c phpsa -n __fish_use_subcommand -f -a make -d 'writes a generated script'
complete -c phpsa -n __fish_use_subcommand -f -a run -d 'runs a script for a request'
complete -c phpsa -n __fish_use_subcommand -f -a grammar -d 'writes the grammar of the pages of a script'
complete -c phpsa -n __fish_use_subcommand -f -a match -d 'says whether each page of a script fits a pattern'
complete -c phpsa -n __fish_use_subcommand -f -a site -d 'decides each script of a list'
complete -c phpsa -n __fish_use_subcommand -f -a help -d 'writes the commands and options'
complete -c phpsa -n __fish_use_subcommand -l version -d 'writes the version'
complete -c phpsa -l help -s h -d 'writes the commands and options'
complete -c phpsa -n '__phpsa_is check run page grammar match site' -l root -x -a '(__fish_complete_directories)' -d 'the folder of what is included'
complete -c phpsa -n '__phpsa_is check run grammar match site' -l stubs -r -d 'the file of functions in place of those of the host'
complete -c phpsa -n '__phpsa_is check page site' -l dtd -x -a 'strict mini (__fish_complete_path)' -d 'the document type'
complete -c phpsa -n '__phpsa_is check site' -l limit -x -d 'give up at so many sums'
complete -c phpsa -n '__phpsa_is check site' -l nesting -d 'ask for matching tags alone'
complete -c phpsa -n '__phpsa_is check' -l json -d 'answer as a line of JSON'
complete -c phpsa -n '__phpsa_is check' -l shortest -d 'show a page of the fewest bytes that is not valid'
complete -c phpsa -n '__phpsa_is make' -l check -d 'decide the script'
complete -c phpsa -n '__phpsa_is make' -f
complete -c phpsa -n '__phpsa_is run' -l request -r -d 'the file of the request'
complete -c phpsa -n '__phpsa_is run' -l steps -x -d 'run at most so many steps'
complete -c phpsa -n '__phpsa_is match' -l policy -r -d 'the file of the pattern'
