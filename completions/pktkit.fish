# Completion of pktkit for fish. Installed as share/fish/vendor_completions.d/pktkit.fish.

set -l commands ring steps run help

complete -c pktkit -f
complete -c pktkit -n "not __fish_seen_subcommand_from $commands" -a ring -d 'Prints the replies to a file of ring commands'
complete -c pktkit -n "not __fish_seen_subcommand_from $commands" -a steps \
    -d 'Prints the replies to a file of atomic steps on shared rings'
complete -c pktkit -n "not __fish_seen_subcommand_from $commands" -a run -d 'Forwards a capture by routes, and prints a report'
complete -c pktkit -n "not __fish_seen_subcommand_from $commands" -a help \
    -d 'Print this message or the help of the given subcommand(s)'
complete -c pktkit -n "not __fish_seen_subcommand_from $commands" -s V -l version -d 'Print version'
complete -c pktkit -n "not __fish_seen_subcommand_from help" -s h -l help -d 'Print help'
complete -c pktkit -n "__fish_seen_subcommand_from help" -a "$commands"
complete -c pktkit -n "__fish_seen_subcommand_from ring steps" -F
complete -c pktkit -n "__fish_seen_subcommand_from run" -l config -r -F -d 'The settings, a TOML document'
complete -c pktkit -n "__fish_seen_subcommand_from run" -l in -r -F \
    -d 'The capture, a classic pcap file, or - for standard input'
complete -c pktkit -n "__fish_seen_subcommand_from run" -l out -r -F -d 'Port 0 is written to PREFIX.0.pcap, and so on'
complete -c pktkit -n "__fish_seen_subcommand_from run" -l workers -x -k -a 'auto (seq 0 16)' \
    -d 'Worker threads'
complete -c pktkit -n "__fish_seen_subcommand_from run" -l progress -d 'Shows the progress in a line on standard error'
