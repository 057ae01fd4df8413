# shellcheck shell=bash disable=SC2154 # each script sets `name`, `folder`, `packages` and `needed`
# What the scripts share that build a guest from the sources of others. `name` is the script's, `folder` that of what it
# builds, `packages` what apt installs for it, and `needed` the MB that it takes of the disk.

# refuse WHAT: nothing can be built
refuse() {
    echo "$name: $1" >&2
    exit 2
}

# say WORDS: a line of how far it is, with the minutes and seconds so far
say() {
    printf '%d:%02d %s\n' $((SECONDS / 60)) $((SECONDS % 60)) "$1"
}

# need PROGRAM...: all of them are to be installed
need() {
    local missing=() program
    for program; do
        command -v "$program" >/dev/null || missing+=("$program")
    done
    [ ${#missing[@]} -eq 0 ] || refuse "there is no ${missing[*]}: apt-get install $packages"
}

# failed LOG WHAT: what went wrong is the end of the log
failed() {
    if grep -q 'No space left on device' "$1"; then
        refuse "no space is left on the disk of $folder, and $2 needs it"
    fi
    grep -m 5 -E '(error|E): |\*\*\* ' "$1" >&2 || tail -n 5 "$1" >&2
    refuse "$2 failed: the whole of it is in $1"
}

# have_space: the disk has room for what is not there yet
have_space() {
    local free
    free=$(df -Pm "$folder" | awk 'NR == 2 { print $4 }')
    [ "$free" -ge "$needed" ] || refuse "$folder has $free MB of free disk, and $needed are needed"
}

# enter_folder: the folder is there, and is the current one, by its whole name
enter_folder() {
    mkdir -p "$folder" 2>/dev/null || refuse "the folder $folder cannot be made"
    [ -w "$folder" ] || refuse "the folder $folder cannot be written"
    case $folder in
    *[[:space:],]*) refuse "the folder $folder has a space or a comma in its name: make takes none" ;;
    esac
    folder=$(cd "$folder" && pwd)
    cd "$folder" || exit
}
