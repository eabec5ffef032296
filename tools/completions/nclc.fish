# Completion of nclc for fish: commands, options, and files by their endings.
function __nclc_files
    for file in (commandline -ct)*.$argv[1] (commandline -ct)*/
        echo $file
    end
end
complete -c nclc -f
complete -c nclc -n __fish_use_subcommand -a check -d 'judge a netlist'
complete -c nclc -n __fish_use_subcommand -a compile -d 'make a netlist of BLIF'
complete -c nclc -n __fish_use_subcommand -a match -d 'compare a netlist with BLIF'
complete -c nclc -n __fish_use_subcommand -a sim -d 'run a netlist at given delays'
complete -c nclc -n __fish_use_subcommand -a demo -d 'make an adder and run it'
complete -c nclc -n '__fish_seen_subcommand_from check match' -l limit -x -d 'at most so many nodes'
complete -c nclc -n '__fish_seen_subcommand_from check' -l why -d 'explain an orphan'
complete -c nclc -n '__fish_seen_subcommand_from compile' -l merge -d 'fold gates'
complete -c nclc -n '__fish_seen_subcommand_from sim' -l vcd -d 'write a value change dump'
complete -c nclc -n '__fish_seen_subcommand_from sim' -l delays -x -a '(__nclc_files delays)' -d 'the delays'
complete -c nclc -n '__fish_seen_subcommand_from sim' -l words -x -a '(__nclc_files words)' -d 'the words'
complete -c nclc -n '__fish_seen_subcommand_from check match sim' -a '(__nclc_files v)'
complete -c nclc -n '__fish_seen_subcommand_from compile match' -a '(__nclc_files blif)'
