# Completion of `adaptproxy-top` for fish.
complete -c adaptproxy-top -f
complete -c adaptproxy-top -l admin -x -d 'asks the proxy of this admin port'
complete -c adaptproxy-top -l config -r -F -d 'asks the proxy of this configuration'
complete -c adaptproxy-top -l once -d 'prints one view'
complete -c adaptproxy-top -l interval -x -d 'seconds between two views'
complete -c adaptproxy-top -l help -d 'prints how it is called'
