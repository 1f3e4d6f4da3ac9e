# Completion of the command ppdb in fish.
set -l commands id verify show query lookup links breaks rebuild remap merge compose sample help

function __ppdb_is_first_word --description 'Whether the word after the command is being written'
    test (count (commandline -opc)) = 2
end

complete -c ppdb -f
complete -c ppdb -n __fish_use_subcommand -a id -d 'the PDB ID and the entry point of a file'
complete -c ppdb -n __fish_use_subcommand -a verify -d 'whether a file is valid, or its first fault'
complete -c ppdb -n __fish_use_subcommand -a show -d 'every row of a file, one line each'
complete -c ppdb -n __fish_use_subcommand -a query -d 'what belongs to an IL offset of a method'
complete -c ppdb -n __fish_use_subcommand -a lookup -d 'the same for each line of a list'
complete -c ppdb -n __fish_use_subcommand -a links -d 'the URLs of sources, by Source Link'
complete -c ppdb -n __fish_use_subcommand -a breaks -d 'where a debugger may stop for a line'
complete -c ppdb -n __fish_use_subcommand -a rebuild -d 'write the canonical file of a file'
complete -c ppdb -n __fish_use_subcommand -a remap -d 'write the debug file of a rewritten module'
complete -c ppdb -n __fish_use_subcommand -a merge -d 'write one debug file for modules that became one'
complete -c ppdb -n __fish_use_subcommand -a compose -d 'write one map of two rewrites'
complete -c ppdb -n __fish_use_subcommand -a sample -d 'the lengths of a generated file'
complete -c ppdb -n __fish_use_subcommand -a help -d 'more about a command'
complete -c ppdb -n __fish_use_subcommand -l help -d 'the commands and the exit statuses'
complete -c ppdb -n __fish_use_subcommand -l version -d 'the version'
complete -c ppdb -n '__fish_seen_subcommand_from help; and __ppdb_is_first_word' -a "$commands"
complete -c ppdb -n '__fish_seen_subcommand_from help; and __ppdb_is_first_word' -a 'F'(seq 40) -d 'what a fault means'
complete -c ppdb -n '__fish_seen_subcommand_from help; and __ppdb_is_first_word' -a 'M'(seq 13) -d 'how a map does not fit'
complete -c ppdb -n '__fish_seen_subcommand_from help; and __ppdb_is_first_word' -a 'L'(seq 6) -d 'a limit of the format'
complete -c ppdb -n '__fish_seen_subcommand_from id verify show query lookup; and __ppdb_is_first_word' -k -a '(__fish_complete_suffix .pdb)'
complete -c ppdb -n '__fish_seen_subcommand_from links breaks rebuild remap; and __ppdb_is_first_word' -k -a '(__fish_complete_suffix .pdb)'
complete -c ppdb -n '__fish_seen_subcommand_from lookup rebuild remap merge compose; and not __ppdb_is_first_word' -F
complete -c ppdb -n '__fish_seen_subcommand_from merge compose; and __ppdb_is_first_word' -F
complete -c ppdb -n '__fish_seen_subcommand_from id show query lookup links breaks' -l json -d 'one JSON object a line'
complete -c ppdb -n '__fish_seen_subcommand_from rebuild remap merge' -l keep-id -d 'keep the PDB ID of the first input'
complete -c ppdb -n '__fish_seen_subcommand_from rebuild remap merge' -l free -x -d 'pass on a kind that is unknown'
