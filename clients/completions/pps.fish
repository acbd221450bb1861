# Completions of pps for fish: install it in a folder of $fish_complete_path.

set -l commands run frames serve

complete -c pps -f
complete -c pps -n "not __fish_seen_subcommand_from $commands" -a run -d "Take a script, and print an answer for each command"
complete -c pps -n "not __fish_seen_subcommand_from $commands" -a frames -d "Take requests as frames, and answer with frames"
complete -c pps -n "not __fish_seen_subcommand_from $commands" -a serve -d "Run one script per session, in several threads"
complete -c pps -n "not __fish_seen_subcommand_from $commands" -l version -d "Print version"
complete -c pps -s h -l help -d "Print help"
complete -c pps -n "__fish_seen_subcommand_from run" -l show -d "Show values of encoding b and b64"
complete -c pps -n "__fish_seen_subcommand_from run" -l interactive -d "Go on after a bad line"
complete -c pps -n "__fish_seen_subcommand_from run frames" -l image -r -F -d "Begin with the image in a file"
complete -c pps -n "__fish_seen_subcommand_from run frames" -l save -r -F -d "Save the service to a file at the end"
complete -c pps -n "__fish_seen_subcommand_from run frames" -l limit -x -a "16 256 4096 65535" -d "How many changes a handle may be owed"
complete -c pps -n "__fish_seen_subcommand_from serve" -l workers -x -a "(seq 8)" -d "How many workers serve"
complete -c pps -n "__fish_seen_subcommand_from serve" -l history -r -F -d "Write the order of the messages to a file"
complete -c pps -n "__fish_seen_subcommand_from serve" -F
