# Completion of the words of mountctl(1) for bash: to be sourced, or installed under the name `mountctl` in a folder
# of completions.

# The refusals of a server.
_mountctl_refusals="BadLine TooLong BadPath JournalFull NoFilesystem FilesystemExists NoNamespace NoEntry EntryExists NotMountRoot RootPlace
Unbindable SharedParent IntoItself UnbindableInside Busy BadAttr TooMany NoWatcher WatcherOpen TooManyWatchers Lagged Stopped NoMemory
Detached NotDetached Locked LockedInside LockedAttr"

# The errors of Linux that are explained.
_mountctl_errnos="EPERM ENOENT ENXIO ENOMEM EACCES ENOTBLK EBUSY EEXIST ENODEV ENOTDIR EINVAL ENOSPC EROFS ENAMETOOLONG ELOOP"

# The options that may follow the words of a drawing, a list or a monitor, and the word for all namespaces. Behind `--name` comes
# a name, for which nothing is offered.
_mountctl_options()
{
    local word before= given= places=0
    for word in "${@:2}"; do
        if [[ $before == --name ]]; then
            word=
        elif [[ $word == -* ]]; then
            given+=" $word"
        else
            ((places++))
        fi
        before=$word
    done
    [[ $before == --name ]] && return
    case $1 in
        tree) [[ $given == *--ascii* || $given == *--json* ]] || printf '%s\n' --ascii --json ;;
        spaces) [[ $given == *--json* ]] || echo --json ;;
        monitor)
            [[ $given == *--json* ]] || echo --json
            [[ $given == *--time* ]] || echo --time
            ;;
    esac
    [[ $1 == spaces || $places != 0 ]] || echo all
    echo --name
}

# The words that may follow those of a line, where it takes more than names, numbers and paths.
_mountctl_words()
{
    local count=$#
    case $1:$count in
        :0) echo mkfs mkdir newns copyns dropns mount bind rbind move pivot umount detach setattr opentree newtree movetree show locks find journal watch take follow close quit stop - monitor mirror tree dot spaces what-if reach origin holders save page ;;
        copyns:2) echo less ;;
        copyns:3) echo lock ;;
        opentree:3) echo rec ;;
        mount:4) echo set={ro,nosuid,nodev,noexec,nosymfollow,nodiratime,relatime,noatime,strictatime} ;;
        watch:1) echo all ;;
        show:2 | find:3 | reach:3 | origin:3 | holders:[23]) echo --json ;;
        page:[12]) echo --journal --room ;;
        tree:[1-9] | dot:[1-9] | spaces:[1-9] | monitor:[1-9]) _mountctl_options "$@" ;;
        setattr:[3-9])
            # Each option may be there once.
            [[ " ${*:4} " == *" rec "* ]] || echo rec
            [[ " ${*:4}" == *" set="* ]] || echo set={ro,nosuid,nodev,noexec,nosymfollow,nodiratime,relatime,noatime,strictatime}
            [[ " ${*:4}" == *" clr="* ]] || echo clr={ro,nosuid,nodev,noexec,nosymfollow,nodiratime,atime}
            [[ " ${*:4}" == *" prop="* ]] || echo prop={shared,private,slave,unbindable}
            ;;
    esac
}

# The sockets and folders that begin so.
_mountctl_sockets()
{
    local path
    compgen -f -- "$1" | while IFS= read -r path; do
        if [[ -S $path || -d $path ]]; then
            printf '%s\n' "$path"
        fi
    done
}

# Which of these words the first one may become. Of a list after `set=` or `clr=` the last part is completed, and `set=`
# itself comes before what may stand after it.
_mountctl_offers()
{
    local current=$1 word begun=
    shift
    if [[ $current == @(set|clr)=*,* ]]; then
        begun=${current%,*},
    fi
    for word; do
        if [[ $begun ]]; then
            [[ $word == "${current%%=*}="* && ,${begun#*=} != *,"${word#*=}",* ]] || continue
            word=$begun${word#*=}
        elif [[ $word == *=* && $current != *=* ]]; then
            word=${word%%=*}=
        fi
        if [[ $word == "$current"* ]]; then
            printf '%s\n' "$word"
        fi
    done | sort -u
}

_mountctl()
{
    local at word current words=() cut=
    # Readline has cut the words at `=`: they are put together again.
    for ((at = 1; at <= COMP_CWORD; at++)); do
        word=${COMP_WORDS[at]}
        if ((${#words[@]} > 1)) && [[ $word == =* || ${words[-1]} == *= && ${COMP_WORDS[at - 1]} == *= ]]; then
            words[-1]+=$word
        else
            words+=("$word")
        fi
    done
    current=${words[-1]}
    unset "words[-1]"
    # Options come first; `--wait` has a number after it, for which nothing is offered.
    while ((${#words[@]})) && [[ ${words[0]} == -?* ]]; do
        [[ ${words[*]} == --wait ]] && return
        [[ ${words[0]} == --wait ]] && words=("${words[@]:1}")
        words=("${words[@]:1}")
    done
    if ((${#words[@]} == 0)); then
        mapfile -t COMPREPLY < <(
            _mountctl_sockets "$current"
            compgen -W "-e -h --help -q -V --version --wait what-if trace import explain help reach origin holders page session play ${MOUNTD_SOCKET:+$(_mountctl_words)}" -- "$current"
        )
        compopt -o filenames 2> /dev/null
        return
    fi
    if [[ ${words[0]} == help ]]; then
        mapfile -t COMPREPLY < <(((${#words[@]} == 1)) && compgen -W "$(_mountctl_words) trace import explain help session play" -- "$current")
        return
    fi
    if [[ ${words[0]} == explain ]]; then
        mapfile -t COMPREPLY < <(((${#words[@]} == 1)) && compgen -W "$_mountctl_refusals $_mountctl_errnos" -- "$current")
        return
    fi
    if [[ ${words[0]} == session ]]; then
        mapfile -t COMPREPLY < <(((${#words[@]} == 1)) && compgen -W "--room" -- "$current")
        return
    fi
    if [[ ${words[0]} == play ]]; then
        # A file stands here, which readline completes itself, or a dash.
        if ((${#words[@]} == 1)); then
            [[ $current == -* ]] && COMPREPLY=(-)
            compopt -o default 2> /dev/null
        fi
        return
    fi
    # Tables are asked where files come first, and a namespace of a server else.
    if [[ ${words[0]} == @(reach|origin|holders) && " ${words[*]} " != *" -- "* ]]; then
        [[ $current == -* ]] && mapfile -t COMPREPLY < <(compgen -W "-- --pid --all" -- "$current")
        compopt -o default 2> /dev/null
        return
    fi
    if [[ ${words[0]} == trace ]]; then
        [[ $current == -* && " ${words[*]} " != *" -- "* ]] && mapfile -t COMPREPLY < <(compgen -W "-- --pid --all --script --json --page --leaks --tables --ns --links --calls" -- "$current")
        compopt -o default 2> /dev/null
        return
    fi
    if [[ ${words[0]} == what-if && " ${words[*]} " != *" -- "* ]]; then
        # Tables stand here: files, which readline completes itself.
        [[ $current == -* ]] && mapfile -t COMPREPLY < <(compgen -W "-- --all --each --fail-if-elsewhere --json --page --pid --room" -- "$current")
        compopt -o default 2> /dev/null
        return
    fi
    # A word that begins a line is no socket: that is the one of the environment.
    if [[ " $(_mountctl_words) " == *" ${words[0]} "* ]]; then
        words=("" "${words[@]}")
    fi
    if [[ ${words[0]} == import ]]; then
        # Files stand here, which readline completes itself.
        [[ $current == -* ]] && mapfile -t COMPREPLY < <(compgen -W "--all --pid --room" -- "$current")
        compopt -o default 2> /dev/null
        return
    fi
    if [[ ${words[1]-} == what-if ]]; then
        [[ $current == -* ]] && mapfile -t COMPREPLY < <(compgen -W "-- --pid --room" -- "$current")
        compopt -o default 2> /dev/null
        return
    fi
    mapfile -t COMPREPLY < <(_mountctl_offers "$current" $(_mountctl_words "${words[@]:1}"))
    # What readline holds for the word begins after the `=` then.
    if [[ $current == *=* && ${COMP_WORDS[COMP_CWORD]} != *[!=]*=* && $COMP_WORDBREAKS == *=* ]]; then
        cut=${current%%=*}=
    fi
    COMPREPLY=("${COMPREPLY[@]#"$cut"}")
    if [[ ${#COMPREPLY[@]} == 1 && ${COMPREPLY[0]} == *= ]]; then
        compopt -o nospace 2> /dev/null
    fi
}

complete -F _mountctl mountctl
