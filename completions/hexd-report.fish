# Completion of hexd-report's words for fish: each option once, and a file. tools/options writes it.
complete -c hexd-report -l playouts -x -d 'How many playouts a search of hexd makes: 1 to 1,000,000'
complete -c hexd-report -l weight -x -d 'How much exploration weighs in a score: 0 to 1,024'
complete -c hexd-report -l workers -x -d 'How many threads search: 1 to 64'
complete -c hexd-report -l json -d 'Write one line of JSON instead'
complete -c hexd-report -l program -r -F -d 'The program hexd: a file'
complete -c hexd-report -l help -d 'Say the options'
complete -c hexd-report -l version -d 'Say the version'
