# Completion of `icapd` for fish.
complete -c icapd -n __fish_use_subcommand -f -a serve -d 'serves connections: reads its configuration from standard input'
complete -c icapd -n __fish_use_subcommand -f -a check -d 'reads a configuration as serve does, and says ok or its fault'
complete -c icapd -n __fish_use_subcommand -f -a once -d 'treats standard input as one connection'
complete -c icapd -n __fish_use_subcommand -l help -d 'prints the commands'
complete -c icapd -n __fish_use_subcommand -l version -d 'prints the version, and the kit that it is proved with'
