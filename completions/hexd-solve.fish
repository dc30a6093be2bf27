# Completion of hexd-solve's words for fish: each option once, and a file. tools/options writes it.
complete -c hexd-solve -l budget -x -d 'How many positions each search of the solver may enter: 1 to 18,446,744,073,709,551,615'
complete -c hexd-solve -l hsearch -x -a 'on off' -d 'Whether it looks for connections: on or off'
complete -c hexd-solve -l json -d 'Write one line of JSON instead'
complete -c hexd-solve -l program -r -F -d 'The program hexd: a file'
complete -c hexd-solve -l help -d 'Say the options'
complete -c hexd-solve -l version -d 'Say the version'
