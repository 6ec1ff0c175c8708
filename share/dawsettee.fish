# Completion of dawsettee's words for fish. Put it into ~/.config/fish/completions.

set -l commands key put get settings
set -l no_command "not __fish_seen_subcommand_from $commands"
set -l with_driver "__fish_seen_subcommand_from key put get"
set -l with_store "__fish_seen_subcommand_from put get"

complete -c dawsettee -f
complete -c dawsettee -n $no_command -l help -d 'Print an overview'
complete -c dawsettee -n $no_command -l version -d 'Print name and version'
complete -c dawsettee -n $no_command -a key -d 'Print the key of the standard input for a driver'
complete -c dawsettee -n $no_command -a put -d 'Put the standard input under a key'
complete -c dawsettee -n $no_command -a get -d 'Write the blob of a key to the standard output'
complete -c dawsettee -n $no_command -a settings -d 'Print what the variables of the environment say'
complete -c dawsettee -n $with_driver -x -l id -d 'Id of the driver'
complete -c dawsettee -n $with_driver -x -l gpu -d 'Name of the GPU'
complete -c dawsettee -n $with_driver -x -l flags -d 'Flags of the driver'
complete -c dawsettee -n $with_store -x -l root -a '(__fish_complete_directories)' -d 'Root folder of the store'
complete -c dawsettee -n $with_store -x -l layout -a 'folder database foz' -d 'Layout of the store'
complete -c dawsettee -n '__fish_seen_subcommand_from put' -x -l limit -d 'Bytes that the store may have'
complete -c dawsettee -n '__fish_seen_subcommand_from put' -x -l meta -d 'Keys with commas between'
