# Completes the words of path_server. Made by tools/manual.
complete -c path_server -f -n __fish_use_subcommand -a path -d 'prints the cost, length and moves of an optimal path, or unreachable'
complete -c path_server -x -n '__fish_seen_subcommand_from path' -l order -a 'rows dfs'
complete -c path_server -x -n '__fish_seen_subcommand_from path' -l workers
complete -c path_server -F -n '__fish_seen_subcommand_from path'
complete -c path_server -f -n __fish_use_subcommand -a check -d 'prints the size of a map and its numbers of passable cells, components and runs'
complete -c path_server -x -n '__fish_seen_subcommand_from check' -l order -a 'rows dfs'
complete -c path_server -x -n '__fish_seen_subcommand_from check' -l workers
complete -c path_server -F -n '__fish_seen_subcommand_from check'
complete -c path_server -f -n __fish_use_subcommand -a scen -d 'checks each length in a scenario file against the map'
complete -c path_server -x -n '__fish_seen_subcommand_from scen' -l order -a 'rows dfs'
complete -c path_server -x -n '__fish_seen_subcommand_from scen' -l workers
complete -c path_server -F -n '__fish_seen_subcommand_from scen'
complete -c path_server -f -n __fish_use_subcommand -a made -d 'measures the map that a formula makes from two sides and a seed'
complete -c path_server -x -n '__fish_seen_subcommand_from made' -l order -a 'rows dfs'
complete -c path_server -x -n '__fish_seen_subcommand_from made' -l workers
complete -c path_server -f -n '__fish_seen_subcommand_from made'
complete -c path_server -f -n __fish_use_subcommand -a replay -d 'runs the edits, builds and queries of a file and prints their results'
complete -c path_server -x -n '__fish_seen_subcommand_from replay' -l order -a 'rows dfs'
complete -c path_server -x -n '__fish_seen_subcommand_from replay' -l workers
complete -c path_server -F -n '__fish_seen_subcommand_from replay'
complete -c path_server -f -n __fish_use_subcommand -a talk -d 'answers request frames on standard input until it ends'
complete -c path_server -x -n '__fish_seen_subcommand_from talk' -l order -a 'rows dfs'
complete -c path_server -x -n '__fish_seen_subcommand_from talk' -l workers
complete -c path_server -x -n '__fish_seen_subcommand_from talk' -l room
complete -c path_server -F -n '__fish_seen_subcommand_from talk'
complete -c path_server -f -n __fish_use_subcommand -a serve -d 'answers the same requests over TCP at a port of this machine'
complete -c path_server -x -n '__fish_seen_subcommand_from serve' -l order -a 'rows dfs'
complete -c path_server -x -n '__fish_seen_subcommand_from serve' -l workers
complete -c path_server -x -n '__fish_seen_subcommand_from serve' -l room
complete -c path_server -F -n '__fish_seen_subcommand_from serve'
complete -c path_server -f -n __fish_use_subcommand -a ask -d 'sends one request to a server and prints the answer'
complete -c path_server -f -n '__fish_seen_subcommand_from ask'
complete -c path_server -n '__fish_seen_subcommand_from ask; and test (count (commandline -opc)) -eq 3' -a 'query change build status bye stop'
complete -c path_server -f -n __fish_use_subcommand -a export -d 'writes the map\'s database file to standard output'
complete -c path_server -x -n '__fish_seen_subcommand_from export' -l order -a 'rows dfs'
complete -c path_server -x -n '__fish_seen_subcommand_from export' -l workers
complete -c path_server -F -n '__fish_seen_subcommand_from export'
complete -c path_server -f -n __fish_use_subcommand -a verify -d 'checks that every path in a database file is optimal, without a search'
complete -c path_server -F -n '__fish_seen_subcommand_from verify'
complete -c path_server -f -n __fish_use_subcommand -a near -d 'prints what check prints, and how many runs the compass does not replace'
complete -c path_server -x -n '__fish_seen_subcommand_from near' -l order -a 'rows dfs'
complete -c path_server -x -n '__fish_seen_subcommand_from near' -l workers
complete -c path_server -F -n '__fish_seen_subcommand_from near'
complete -c path_server -f -n __fish_use_subcommand -a nearpath -d 'prints an optimal path that follows the compass wherever it is right'
complete -c path_server -x -n '__fish_seen_subcommand_from nearpath' -l order -a 'rows dfs'
complete -c path_server -x -n '__fish_seen_subcommand_from nearpath' -l workers
complete -c path_server -F -n '__fish_seen_subcommand_from nearpath'
complete -c path_server -f -n __fish_use_subcommand -a lead -d 'serves like serve, and sends accepted edits to followers at another port'
complete -c path_server -x -n '__fish_seen_subcommand_from lead' -l order -a 'rows dfs'
complete -c path_server -x -n '__fish_seen_subcommand_from lead' -l workers
complete -c path_server -x -n '__fish_seen_subcommand_from lead' -l room
complete -c path_server -F -n '__fish_seen_subcommand_from lead'
complete -c path_server -f -n __fish_use_subcommand -a follow -d 'takes the accepted edits of a leader, then answers requests like talk'
complete -c path_server -x -n '__fish_seen_subcommand_from follow' -l order -a 'rows dfs'
complete -c path_server -f -n '__fish_seen_subcommand_from follow'
