# Completion of hexd-board's words for fish: each option once. tools/options writes it.
complete -c hexd-board -f
complete -c hexd-board -l playouts -x -d 'How many playouts a search of hexd makes, in place of the strength normal: 1 to 1,000,000'
complete -c hexd-board -l weight -x -d 'How much exploration weighs in a score, in place of the strength too: 0 to 1,024'
complete -c hexd-board -l workers -x -d 'How many threads search: 1 to 64'
complete -c hexd-board -l open -d 'Open the page in a browser'
complete -c hexd-board -l port -x -d 'The port on which it listens, 0 for any free one: 0 to 65,535'
complete -c hexd-board -l listen -x -d 'The address on which it listens: an address of this machine'
complete -c hexd-board -l program -r -F -d 'The program hexd: a file'
complete -c hexd-board -l help -d 'Say the options'
complete -c hexd-board -l version -d 'Say the version'
