# Completion of the words of mountctl(1) for fish: to be installed as `mountctl.fish` in a folder of completions. The words are
# those that the completion for bash offers, which lies beside this file or where bash looks for it; it needs bash.

function __mountctl_offers
    set -l word (commandline -ct)
    set -l line (commandline -opc) "$word"
    for script in $__mountctl_folder/mountctl.bash /{usr/local,usr}/share/bash-completion/completions/mountctl
        if test -r $script
            bash -c 'source "$0"; COMP_WORDS=("$@"); COMP_CWORD=$(($# - 1)); _mountctl; ((${#COMPREPLY[@]})) && printf "%s\n" "${COMPREPLY[@]}"' $script $line
            return
        end
    end
end

set -g __mountctl_folder (status dirname)
complete -c mountctl -f -a '(__mountctl_offers)'
# Files stand after the words of an import.
complete -c mountctl -F -n 'string match -qr "^(import|what-if|trace|reach|origin|holders)\$" -- (commandline -opc)'
