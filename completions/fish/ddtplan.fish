# Completion of ddtplan(1) in fish.

# Whether the command is this one; with a number, whether as many words are before this one that are neither options nor
# their values, the command among them.
function __ddtplan_at
    set -l words (commandline -opc)
    set -e words[1]
    set -l plain
    while set -q words[1]
        switch $words[1]
            case --off --old --resolver --max-lost --from --step --foreign --changed --sample --as-itr --as-etr --rate \
                    --timeout --tries --under --depth
                set -e words[1]
            case -
                set -a plain $words[1]
            case '-*'
            case '*'
                set -a plain $words[1]
        end
        set -e words[1]
    end
    test "$plain[1]" = $argv[1]
    and begin
        not set -q argv[2]
        or test (count $plain) = $argv[2]
    end
end

complete -c ddtplan -f
complete -c ddtplan -n __fish_use_subcommand -s h -l help -d 'Print help'
complete -c ddtplan -n __fish_use_subcommand -s V -l version -d 'Print the version'
complete -c ddtplan -n __fish_use_subcommand -a blocks -d 'List the blocks that a register assigns alike'
complete -c ddtplan -n __fish_use_subcommand -a diff -d 'List the blocks whose assignment changes'
complete -c ddtplan -n __fish_use_subcommand -a seam -d 'Say whether two registers fit together'
complete -c ddtplan -n __fish_use_subcommand -a faults -d 'List every fault of a file, with its line'
complete -c ddtplan -n __fish_use_subcommand -a warn -d 'List what a register has that is mostly a mistake'
complete -c ddtplan -n __fish_use_subcommand -a compile -d 'Write all configurations and a manifest'
complete -c ddtplan -n __fish_use_subcommand -a rollout -d 'Print in which steps a change is rolled out'
complete -c ddtplan -n __fish_use_subcommand -a report -d 'Write a page of HTML that shows a change'
complete -c ddtplan -n __fish_use_subcommand -a loopback -d 'Print the register with its servers on the loopback'
complete -c ddtplan -n __fish_use_subcommand -a export -d 'Print a configuration as another implementation reads it'
complete -c ddtplan -n __fish_use_subcommand -a ask -d 'Compare what the servers say with the register'
complete -c ddtplan -n __fish_use_subcommand -a tree -d 'Draw the tree of a register as SVG'
complete -c ddtplan -n __fish_use_subcommand -a ladder -d 'Draw the messages of a lookup as SVG'
complete -c ddtplan -n __fish_use_subcommand -a help -d 'Print the help of the program or of a command'

complete -c ddtplan -n '__ddtplan_at blocks 1' -k -a '(__fish_complete_suffix .csv)'
complete -c ddtplan -n '__ddtplan_at blocks' -l no-holes -d 'Leave out the holes'
complete -c ddtplan -n '__ddtplan_at blocks' -l count -d 'Print only how many blocks each kind has'
complete -c ddtplan -n '__ddtplan_at blocks' -l json -d 'Print a JSON object a line'
complete -c ddtplan -n '__ddtplan_at blocks' -s h -l help -d 'Print help'

complete -c ddtplan -n '__ddtplan_at diff 1' -k -a '(__fish_complete_suffix .csv)'
complete -c ddtplan -n '__ddtplan_at diff 2' -k -a '(__fish_complete_suffix .csv)'
complete -c ddtplan -n '__ddtplan_at diff' -l exact -d 'List where only the prefix of an outcome differs, too'
complete -c ddtplan -n '__ddtplan_at diff' -l count -d 'Print only how many changed blocks each kind has'
complete -c ddtplan -n '__ddtplan_at diff' -l summary -d 'Print only the summary'
complete -c ddtplan -n '__ddtplan_at diff' -l json -d 'Print a JSON object a line'
complete -c ddtplan -n '__ddtplan_at diff' -s h -l help -d 'Print help'

complete -c ddtplan -n '__ddtplan_at seam 1' -k -a '(__fish_complete_suffix .csv)'
complete -c ddtplan -n '__ddtplan_at seam 2' -k -a '(__fish_complete_suffix .csv)'
complete -c ddtplan -n '__ddtplan_at seam' -l foreign -x -d 'A group whose servers the other side runs'
complete -c ddtplan -n '__ddtplan_at seam' -l index -k -xa '(__fish_complete_suffix .csv)' -d 'The registers of a tree, and who runs which groups'
complete -c ddtplan -n '__ddtplan_at seam' -s h -l help -d 'Print help'

complete -c ddtplan -n '__ddtplan_at faults 1' -k -a '(__fish_complete_suffix .csv)'
complete -c ddtplan -n '__ddtplan_at faults' -l old -r -k -a '(__fish_complete_suffix .csv)' -d 'The register before'
complete -c ddtplan -n '__ddtplan_at faults' -s h -l help -d 'Print help'

complete -c ddtplan -n '__ddtplan_at warn 1' -k -a '(__fish_complete_suffix .csv)'
complete -c ddtplan -n '__ddtplan_at warn' -l old -r -k -a '(__fish_complete_suffix .csv)' -d 'The register before'
complete -c ddtplan -n '__ddtplan_at warn' -l resolver -x -d 'An address of a Map-Resolver'
complete -c ddtplan -n '__ddtplan_at warn' -l off -x -a unreachable-locator -d 'Turn a kind of warning off'
complete -c ddtplan -n '__ddtplan_at warn' -l off -x -a unreachable-etr -d 'Turn a kind of warning off'
complete -c ddtplan -n '__ddtplan_at warn' -l off -x -a repeated-etr -d 'Turn a kind of warning off'
complete -c ddtplan -n '__ddtplan_at warn' -l off -x -a etr-is-server -d 'Turn a kind of warning off'
complete -c ddtplan -n '__ddtplan_at warn' -l off -x -a etr-is-resolver -d 'Turn a kind of warning off'
complete -c ddtplan -n '__ddtplan_at warn' -l off -x -a etr-inside-site -d 'Turn a kind of warning off'
complete -c ddtplan -n '__ddtplan_at warn' -l off -x -a locator-inside-eids -d 'Turn a kind of warning off'
complete -c ddtplan -n '__ddtplan_at warn' -l off -x -a group-without-zone -d 'Turn a kind of warning off'
complete -c ddtplan -n '__ddtplan_at warn' -l off -x -a node-zone-without-child -d 'Turn a kind of warning off'
complete -c ddtplan -n '__ddtplan_at warn' -l off -x -a zone-between -d 'Turn a kind of warning off'
complete -c ddtplan -n '__ddtplan_at warn' -l off -x -a zone-of-strange-group -d 'Turn a kind of warning off'
complete -c ddtplan -n '__ddtplan_at warn' -l off -x -a site-in-other-region -d 'Turn a kind of warning off'
complete -c ddtplan -n '__ddtplan_at warn' -l off -x -a truncated-file -d 'Turn a kind of warning off'
complete -c ddtplan -n '__ddtplan_at warn' -l foreign -x -d 'A group whose servers others run'
complete -c ddtplan -n '__ddtplan_at warn' -s h -l help -d 'Print help'

complete -c ddtplan -n '__ddtplan_at compile 1' -k -a '(__fish_complete_suffix .csv)'
complete -c ddtplan -n '__ddtplan_at compile 2' -a '(__fish_complete_directories)'
complete -c ddtplan -n '__ddtplan_at compile' -l remove -d 'Remove the files of groups that are gone'
complete -c ddtplan -n '__ddtplan_at compile' -l max-lost -x -d 'Refuse where more of the sites are gone'
complete -c ddtplan -n '__ddtplan_at compile' -l from -x -d 'The register in force, for a step' -k -a '(__fish_complete_suffix .csv)'
complete -c ddtplan -n '__ddtplan_at compile' -l step -x -d 'The number of the step'
complete -c ddtplan -n '__ddtplan_at compile' -l foreign -x -d 'A group whose servers others run'
complete -c ddtplan -n '__ddtplan_at compile' -s h -l help -d 'Print help'

complete -c ddtplan -n '__ddtplan_at rollout 1' -k -a '(__fish_complete_suffix .csv)'
complete -c ddtplan -n '__ddtplan_at rollout 2' -k -a '(__fish_complete_suffix .csv)'
complete -c ddtplan -n '__ddtplan_at rollout' -s h -l help -d 'Print help'

complete -c ddtplan -n '__ddtplan_at report 1' -k -a '(__fish_complete_suffix .csv)'
complete -c ddtplan -n '__ddtplan_at report 2' -k -a '(__fish_complete_suffix .csv)'
complete -c ddtplan -n '__ddtplan_at report 3' -k -a '(__fish_complete_suffix .html)'
complete -c ddtplan -n '__ddtplan_at report' -s h -l help -d 'Print help'

complete -c ddtplan -n '__ddtplan_at loopback 1' -k -a '(__fish_complete_suffix .csv)'
complete -c ddtplan -n '__ddtplan_at loopback' -l table -d 'Print only which address became which'
complete -c ddtplan -n '__ddtplan_at loopback' -s h -l help -d 'Print help'

complete -c ddtplan -n '__ddtplan_at export 1' -a oor -d 'openoverlayrouter 1.3.0'
complete -c ddtplan -n '__ddtplan_at export 2' -k -a '(__fish_complete_suffix .csv)'
complete -c ddtplan -n '__ddtplan_at export' -s h -l help -d 'Print help'

complete -c ddtplan -n '__ddtplan_at ask 1' -k -a '(__fish_complete_suffix .csv)'
complete -c ddtplan -n '__ddtplan_at ask' -l changed -x -k -a '(__fish_complete_suffix .csv)' -d 'Ask only what differs from a register'
complete -c ddtplan -n '__ddtplan_at ask' -l sample -x -d 'How many blocks are drawn'
complete -c ddtplan -n '__ddtplan_at ask' -l quiet -d 'Leave out what agrees'
complete -c ddtplan -n '__ddtplan_at ask' -l resolver -x -d 'Ask this Map-Resolver'
complete -c ddtplan -n '__ddtplan_at ask' -l as-itr -x -d 'The address to which it replies'
complete -c ddtplan -n '__ddtplan_at ask' -l as-etr -x -d 'The same, of an ETR'
complete -c ddtplan -n '__ddtplan_at ask' -l foreign -x -d 'A group whose servers others run'
complete -c ddtplan -n '__ddtplan_at ask' -l rate -x -d 'Questions a second'
complete -c ddtplan -n '__ddtplan_at ask' -l timeout -x -d 'Milliseconds for a reply'
complete -c ddtplan -n '__ddtplan_at ask' -l tries -x -d 'Requests to a server that is silent'
complete -c ddtplan -n '__ddtplan_at ask' -s h -l help -d 'Print help'

complete -c ddtplan -n '__ddtplan_at tree 1' -k -a '(__fish_complete_suffix .csv)'
complete -c ddtplan -n '__ddtplan_at tree' -l under -x -d 'Draw what is inside this prefix'
complete -c ddtplan -n '__ddtplan_at tree' -l depth -x -d 'How many levels of zones are drawn'
complete -c ddtplan -n '__ddtplan_at tree' -s h -l help -d 'Print help'

complete -c ddtplan -n '__ddtplan_at ladder 1' -k -a '(__fish_complete_suffix .csv)'
complete -c ddtplan -n '__ddtplan_at ladder' -s h -l help -d 'Print help'

complete -c ddtplan -n '__ddtplan_at help' -a blocks -d 'List the blocks that a register assigns alike'
complete -c ddtplan -n '__ddtplan_at help' -a diff -d 'List the blocks whose assignment changes'
complete -c ddtplan -n '__ddtplan_at help' -a seam -d 'Say whether two registers fit together'
complete -c ddtplan -n '__ddtplan_at help' -a faults -d 'List every fault of a file, with its line'
complete -c ddtplan -n '__ddtplan_at help' -a warn -d 'List what a register has that is mostly a mistake'
complete -c ddtplan -n '__ddtplan_at help' -a compile -d 'Write all configurations and a manifest'
complete -c ddtplan -n '__ddtplan_at help' -a rollout -d 'Print in which steps a change is rolled out'
complete -c ddtplan -n '__ddtplan_at help' -a report -d 'Write a page of HTML that shows a change'
complete -c ddtplan -n '__ddtplan_at help' -a loopback -d 'Print the register with its servers on the loopback'
complete -c ddtplan -n '__ddtplan_at help' -a export -d 'Print a configuration as another implementation reads it'
complete -c ddtplan -n '__ddtplan_at help' -a ask -d 'Compare what the servers say with the register'
complete -c ddtplan -n '__ddtplan_at help' -a tree -d 'Draw the tree of a register as SVG'
complete -c ddtplan -n '__ddtplan_at help' -a ladder -d 'Draw the messages of a lookup as SVG'
complete -c ddtplan -n '__ddtplan_at help' -a help -d 'Print the help of the program or of a command'
