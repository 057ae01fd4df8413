# Completion of bash for nesthv, its tools and examples/run. Read it by `source tools/completion.bash`, or
# install it.
_nesthv_image='--steps --blocks --spaces --entries --console --input --device --write'

_nesthv() {
    if [ "$COMP_CWORD" -eq 1 ]; then
        mapfile -t COMPREPLY < <(compgen -W 'run replay check work save' -- "$2")
    elif [ "${COMP_WORDS[1]}" = work ]; then
        COMPREPLY=()
    elif [ "$COMP_CWORD" -eq 2 ]; then
        compopt -o filenames
        mapfile -t COMPREPLY < <(compgen -d -- "$2"; compgen -f -X '!*.toml' -- "$2")
    elif [ "$COMP_CWORD" -eq 3 ] && [ "${COMP_WORDS[1]}" = replay ]; then
        compopt -o filenames
        mapfile -t COMPREPLY < <(compgen -f -- "$2")
    elif [ "$COMP_CWORD" -eq 3 ] && [ "${COMP_WORDS[1]}" = save ]; then
        mapfile -t COMPREPLY < <(compgen -W "$(_nesthv_guests "${COMP_WORDS[2]}")" -- "$2")
    fi
}

# The numbers of the guests of a configuration, as far as `[[guest]]` tells.
_nesthv_guests() {
    local count
    count=$(grep -c '^ *\[\[guest\]\]' -- "$1" 2>/dev/null) && seq 0 $((count - 1))
}

# _nesthv_words OPTIONS WORD: the options that fit, where WORD begins like one
_nesthv_words() {
    [[ $2 == -?* ]] && mapfile -t COMPREPLY < <(compgen -W "$1 --help --version" -- "$2")
}

_nesthv_run() {
    local folder names
    compopt -o filenames
    case $3 in
    --expect)
        mapfile -t COMPREPLY < <(compgen -W 'running waiting stopped 0 1 2 3 4 5 6' -- "$2")
        return
        ;;
    --program | --input | --write) mapfile -t COMPREPLY < <(compgen -f -- "$2") && return ;;
    --seconds | --steps | --blocks | --spaces | --entries | --console) return ;;
    esac
    if _nesthv_words "--json --expect --verdict --progress --program --quiet --raw --seconds --elf
        $_nesthv_image" "$2"; then
        return
    fi
    folder=$(dirname -- "$1")/../examples
    names=$(cd "$folder" 2>/dev/null && printf '%s ' */report | sed 's|/report||g')
    mapfile -t COMPREPLY < <(compgen -W "run replay check save $names" -- "$2"; compgen -f -- "$2")
}

# _nesthv_files OPTIONS WORD: the options that fit, or files
_nesthv_files() {
    compopt -o filenames
    _nesthv_words "$1" "$2" || mapfile -t COMPREPLY < <(compgen -f -- "$2")
}

_nesthv_inputs() {
    _nesthv_files --text "$2"
}

_nesthv_saved() {
    _nesthv_files '--console --ram --raw' "$2"
}

_nesthv_qemu_run() {
    case $3 in --guest | --seconds | --cpu) return ;; esac
    _nesthv_files '--guest --traps --trace --gdb --seconds --plain --single --time --raw --cpu' "$2"
}

_nesthv_build() {
    if [ "$3" = -o ] || ! _nesthv_words '-o -O0 -O2 -O3' "$2"; then
        compopt -o filenames
        mapfile -t COMPREPLY < <(compgen -d -- "$2"; compgen -f -X '!*.[csS]' -- "$2")
    fi
}

_nesthv_batch() {
    case $3 in --only | --jobs | --seconds | --sshlogin | --steps | --blocks | --spaces | --entries | --console) return ;; esac
    _nesthv_files "--only --jobs --seconds --first --store --verdict --times --tap --json --junit --program
        --sshlogin $_nesthv_image" "$2"
}

# The options of an ELF file or an image, where --console and --write mean something else.
_nesthv_own_image='--steps --blocks --spaces --entries --input --device'

_nesthv_explore() {
    case $3 in
    --try)
        mapfile -t COMPREPLY < <(compgen -W 'timer input late wake reservation translations' -- "$2")
        return
        ;;
    --by | --seed | --from | --to | --each | --runs | --time | --shard | --stops | --expect | --expect-regex) return ;;
    --sshlogin | --steps | --blocks | --spaces | --entries) return ;;
    esac
    _nesthv_files "--try --by --twice --seed --from --to --each --runs --time --shard --again --verdict --console
        --stops --expect --expect-regex --json --tap --junit --write --elf --program --sshlogin
        $_nesthv_own_image" "$2"
}

_nesthv_fuzz() {
    case $3 in --at | --most | --time | --steps | --blocks | --spaces | --entries) return ;; esac
    _nesthv_files "--write --at --most --time --prepare --show --program $_nesthv_own_image" "$2"
}

_nesthv_debug() {
    case $3 in --gdb | --steps | --blocks | --spaces | --entries | --console) return ;; esac
    if [[ $3 == *.toml ]] && [[ $2 != -* ]]; then
        mapfile -t COMPREPLY < <(compgen -W "$(_nesthv_guests "$3")" -- "$2")
    else
        _nesthv_files "--print --gdb --stub $_nesthv_image" "$2"
    fi
}

_nesthv_profile() {
    case $3 in --columns | --from | --to | --steps | --blocks | --spaces | --entries | --console) return ;; esac
    if [[ $3 == *.toml ]] && [[ $2 != -* ]]; then
        mapfile -t COMPREPLY < <(compgen -W "$(_nesthv_guests "$3")" -- "$2")
    else
        _nesthv_files "--callgrind --functions --lcov --exits --timeline --svg --columns --from --to --no-modes
            --log --trace --hs --vs $_nesthv_image" "$2"
    fi
}

_nesthv_gdb() {
    compopt -o filenames
    if [ "$COMP_CWORD" -eq 1 ]; then
        mapfile -t COMPREPLY < <(compgen -d -- "$2"; compgen -f -X '!*.toml' -- "$2")
    elif [ "$COMP_CWORD" -eq 2 ]; then
        mapfile -t COMPREPLY < <(compgen -W "$(_nesthv_guests "$3")" -- "$2")
    fi
}

_nesthv_trace() {
    local kinds='traps worlds calls fences fills stale steps counts' before=
    if [ "$COMP_CWORD" -lt 3 ]; then
        _nesthv_gdb "$@"
    elif [ "$COMP_CWORD" -eq 3 ]; then
        case $2 in *,*) before=${2%,*}, ;; esac
        mapfile -t COMPREPLY < <(compgen -P "$before" -W "$kinds" -- "${2##*,}")
    fi
}

_nesthv_look() {
    local commands='at walk maps first trace traps first-trap last-trap entered diff fences doctor' word command=
    case $3 in
    --as) mapfile -t COMPREPLY < <(compgen -W 'HS U VS VU' -- "$2") && return ;;
    --step) mapfile -t COMPREPLY < <(compgen -W 'end' -- "$2") && return ;;
    --cache) compopt -o filenames && mapfile -t COMPREPLY < <(compgen -d -- "$2") && return ;;
    --most | --cache-size | --time) return ;;
    first) mapfile -t COMPREPLY < <(compgen -W 'console status clock memory' -- "$2") && return ;;
    status) mapfile -t COMPREPLY < <(compgen -W 'waiting stopped' -- "$2") && return ;;
    esac
    if [[ $2 == -* ]]; then
        _nesthv_words "--as --step --svg --most --first --strict --time --elf --json --program --cache --cache-size
            $_nesthv_image" "$2"
        return
    fi
    for word in "${COMP_WORDS[@]:1:COMP_CWORD-1}"; do
        [[ " $commands " != *" $word "* ]] || command=$word
    done
    if [ "$COMP_CWORD" -gt 1 ] && [ -z "$command" ] && [[ $3 != --* ]]; then
        mapfile -t COMPREPLY < <(compgen -W "$(_nesthv_guests "$3") $commands" -- "$2")
    elif [ -z "$command" ] || [ "$command" = diff ] || [[ $3 == --* ]]; then
        compopt -o filenames
        mapfile -t COMPREPLY < <(compgen -f -- "$2")
    fi
}

complete -F _nesthv nesthv
complete -F _nesthv_look nesthv-look tools/look
complete -F _nesthv_inputs nesthv-inputs tools/inputs
complete -F _nesthv_saved nesthv-saved tools/saved
complete -F _nesthv_batch nesthv-batch tools/batch
complete -F _nesthv_explore nesthv-explore tools/explore
complete -F _nesthv_fuzz nesthv-fuzz tools/fuzz
complete -F _nesthv_build nesthv-build tools/build
complete -F _nesthv_debug nesthv-debug tools/debug
complete -F _nesthv_profile nesthv-profile tools/profile
complete -F _nesthv_gdb nesthv-gdb dist/nesthv-gdb
complete -F _nesthv_trace nesthv-trace dist/nesthv-trace
complete -F _nesthv_qemu_run nesthv-qemu-run tools/qemu-run
complete -F _nesthv_run nesthv-run examples/run ./run tools/run
