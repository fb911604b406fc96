# Completion of ddt(1) in fish.

# Whether the command is this one; with a number, whether as many words are before this one that are neither options nor
# their values, the command among them.
function __ddt_at
    set -l words (commandline -opc)
    set -e words[1]
    set -l plain
    while set -q words[1]
        switch $words[1]
            case --me --seed --turns
                set -e words[1]
            case '-*'
            case '*'
                set -a plain $words[1]
        end
        set -e words[1]
    end
    test "$plain[1]" = $argv[1]
    and begin
        not set -q argv[2]
        or test (count $plain) = $argv[2]
    end
end

complete -c ddt -f
complete -c ddt -n __fish_use_subcommand -a answer -d 'Print the Map-Referral of a server of a group'
complete -c ddt -n __fish_use_subcommand -a assign -d 'Print what the register assigns to an identifier'
complete -c ddt -n __fish_use_subcommand -a check -d 'Say whether the register is accepted'
complete -c ddt -n __fish_use_subcommand -a compile -d 'Print the configuration of the servers of a group'
complete -c ddt -n __fish_use_subcommand -a loop -d 'Look identifiers up on the loopback'
complete -c ddt -n __fish_use_subcommand -a lookup -d 'Look identifiers up from the root'
complete -c ddt -n __fish_use_subcommand -a replay -d 'Play a schedule of datagrams'
complete -c ddt -n __fish_use_subcommand -a serve -d 'Run one server on the loopback, for a number of turns'
complete -c ddt -n __fish_use_subcommand -a show -d 'Say what the bytes of a message mean'

complete -c ddt -n '__ddt_at answer 1' -k -a '(__fish_complete_suffix .csv)'

complete -c ddt -n '__ddt_at assign 1' -k -a '(__fish_complete_suffix .csv)'

complete -c ddt -n '__ddt_at check 1' -k -a '(__fish_complete_suffix .csv)'

complete -c ddt -n '__ddt_at compile 1' -k -a '(__fish_complete_suffix .csv)'

complete -c ddt -n '__ddt_at loop 1' -k -a '(__fish_complete_suffix .csv)'
complete -c ddt -n '__ddt_at loop' -l me -x -d 'The address of the resolver'
complete -c ddt -n '__ddt_at loop' -l seed -x -d 'The first nonce'
complete -c ddt -n '__ddt_at loop' -l turns -x -d 'The greatest number of turns'

complete -c ddt -n '__ddt_at lookup 1' -k -a '(__fish_complete_suffix .csv)'
complete -c ddt -n '__ddt_at lookup' -l me -x -d 'The address of the resolver'
complete -c ddt -n '__ddt_at lookup' -l seed -x -d 'The first nonce'

complete -c ddt -n '__ddt_at replay 1' -k -a '(__fish_complete_suffix .csv)'
complete -c ddt -n '__ddt_at replay 2' -k -a '(__fish_complete_suffix .replay)'
complete -c ddt -n '__ddt_at replay 3' -k -a '(__fish_complete_suffix .csv)'
complete -c ddt -n '__ddt_at replay 4' -k -a '(__fish_complete_suffix .csv)'
complete -c ddt -n '__ddt_at replay' -l me -x -d 'The address of the resolver'
complete -c ddt -n '__ddt_at replay' -l seed -x -d 'The first nonce'

complete -c ddt -n '__ddt_at serve 1' -k -a '(__fish_complete_suffix .toml)'
