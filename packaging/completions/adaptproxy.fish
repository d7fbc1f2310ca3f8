# Completion of `adaptproxy` for fish.
complete -c adaptproxy -n __fish_use_subcommand -f -a serve -d 'is the proxy: reads its configuration, and serves'
complete -c adaptproxy -n __fish_use_subcommand -f -a check -d 'reads a configuration as serve does, and says ok or its fault'
complete -c adaptproxy -n __fish_use_subcommand -f -a tell -d "says a line to the admin port that a configuration names"
complete -c adaptproxy -n '__fish_seen_subcommand_from tell' -f -a 'book capacity drain exchanges refresh reload reopen stats stop trace'
complete -c adaptproxy -n '__fish_seen_subcommand_from exchanges' -f -a waiting -d 'those alone that stand still'
complete -c adaptproxy -n '__fish_seen_subcommand_from serve check tell' -l config -r -F -d 'reads this file in place of standard input'
complete -c adaptproxy -n __fish_use_subcommand -f -a probe -d 'tries the services that a configuration names'
complete -c adaptproxy -n '__fish_seen_subcommand_from probe' -l only -x -a 'no-body below below-allow preview preview-allow above above-allow million million-allow chunked eicar' -d 'sends one sample alone'
complete -c adaptproxy -n '__fish_seen_subcommand_from probe' -l count -x -d 'sends each sample so many times'
complete -c adaptproxy -n __fish_use_subcommand -f -a trace -d 'answers a script of one transaction'
complete -c adaptproxy -n __fish_use_subcommand -f -a chunks -d 'reads a chunked body in pieces of N bytes'
complete -c adaptproxy -n __fish_use_subcommand -l help -d 'prints the commands'
complete -c adaptproxy -n __fish_use_subcommand -l version -d 'prints the version, and the kit that it is proved with'
