# Completion of s66 for fish: subcommands and options as s66 --help and s66 SUBCOMMAND -h list them, and files.
complete -c s66 -n __fish_use_subcommand -f -a '(s66 --help | string replace -rf "^  ([a-z]{3,})  +(.*)" "\$1\t\$2")'
complete -c s66 -n 'not __fish_use_subcommand; and string match -q -- "-*" (commandline -ct)' -a '(s66 (commandline -opc)[2] -h | string match -rg -- "^ *(?:-., )?(--[a-z-]+)"; s66 (commandline -opc)[2] -h | string match -rg -- "^  (-[a-z])\$")'
