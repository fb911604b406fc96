# Completion of ddtd(8) in fish.

# Whether the command is this one; with a number, whether as many words are before this one that are neither options nor
# their values, the command among them.
function __ddtd_at
    set -l words (commandline -opc)
    set -e words[1]
    set -l plain
    while set -q words[1]
        switch $words[1]
            case --control --format --keys --registrations --settings
                set -e words[1]
            case '-*'
            case '*'
                set -a plain $words[1]
        end
        set -e words[1]
    end
    test "$plain[1]" = $argv[1]
    and begin
        not set -q argv[2]
        or test (count $plain) = $argv[2]
    end
end

complete -c ddtd -f
complete -c ddtd -n __fish_use_subcommand -s h -l help -d 'Print help'
complete -c ddtd -n __fish_use_subcommand -s V -l version -d 'Print the version'
complete -c ddtd -n __fish_use_subcommand -a check -d 'Say whether a configuration, settings or keys are good'
complete -c ddtd -n __fish_use_subcommand -a serve -d 'Serve a configuration as a DDT node or a Map-Server'
complete -c ddtd -n __fish_use_subcommand -a resolve -d 'Resolve for ITRs as a Map-Resolver'
complete -c ddtd -n __fish_use_subcommand -a tell -d 'Tell a running daemon what to do, and print what it answers'
complete -c ddtd -n __fish_use_subcommand -a help -d 'Print the help of the program or of a command'

complete -c ddtd -n '__ddtd_at check 1' -k -a '(__fish_complete_suffix .toml)'
complete -c ddtd -n '__ddtd_at check' -l keys -r -k -a '(__fish_complete_suffix .toml)' -d 'The keys of sites of the configuration'
complete -c ddtd -n '__ddtd_at check' -s h -l help -d 'Print help'

complete -c ddtd -n '__ddtd_at serve 1' -k -a '(__fish_complete_suffix .toml)'
complete -c ddtd -n '__ddtd_at serve' -l control -r -F -d 'Listen at this Unix socket for what it is told'
complete -c ddtd -n '__ddtd_at serve' -l keys -r -k -a '(__fish_complete_suffix .toml)' -d 'Let ETRs register under the keys of this file'
complete -c ddtd -n '__ddtd_at serve' -l registrations -r -F -d 'Keep in this file, over a restart, what is registered'
complete -c ddtd -n '__ddtd_at serve' -l settings -r -k -a '(__fish_complete_suffix .toml)' -d 'Answer the ITRs that this file allows'
complete -c ddtd -n '__ddtd_at serve' -l share -d 'Let other processes serve at the same addresses'
complete -c ddtd -n '__ddtd_at serve' -l watch -d 'Take the files up whenever one has changed'
complete -c ddtd -n '__ddtd_at serve' -s h -l help -d 'Print help'

complete -c ddtd -n '__ddtd_at resolve 1' -k -a '(__fish_complete_suffix .toml)'
complete -c ddtd -n '__ddtd_at resolve' -l control -r -F -d 'Listen at this Unix socket for what it is told'
complete -c ddtd -n '__ddtd_at resolve' -s h -l help -d 'Print help'

complete -c ddtd -n '__ddtd_at tell 1' -F
complete -c ddtd -n '__ddtd_at tell' -l format -x -a 'lines json prometheus' -d 'Print it in this form'
complete -c ddtd -n '__ddtd_at tell' -s h -l help -d 'Print help'
complete -c ddtd -n '__ddtd_at tell 2' -a stats -d 'Print what it has counted'
complete -c ddtd -n '__ddtd_at tell 2' -a reload -d 'Take up its file anew'
complete -c ddtd -n '__ddtd_at tell 2' -a flush -d 'Forget what it remembers of referrals'
complete -c ddtd -n '__ddtd_at tell 2' -a stop -d 'End, and remove its socket'
complete -c ddtd -n '__ddtd_at tell 2' -a servers -d 'Print what it knows of each server'
complete -c ddtd -n '__ddtd_at tell 2' -a sites -d 'Print what is registered for each site that has a key'
complete -c ddtd -n '__ddtd_at tell 2' -a cache -d 'Print what it remembers'
complete -c ddtd -n '__ddtd_at tell 2' -a lookup -d 'Look an identifier up'

complete -c ddtd -n '__ddtd_at help' -a check -d 'Say whether a configuration, settings or keys are good'
complete -c ddtd -n '__ddtd_at help' -a serve -d 'Serve a configuration as a DDT node or a Map-Server'
complete -c ddtd -n '__ddtd_at help' -a resolve -d 'Resolve for ITRs as a Map-Resolver'
complete -c ddtd -n '__ddtd_at help' -a tell -d 'Tell a running daemon what to do, and print what it answers'
complete -c ddtd -n '__ddtd_at help' -a help -d 'Print the help of the program or of a command'
