# Shell functions for finding the Rattle kit and running a program that it compiled. Read by daphnorill and bench/run.

machine=$(uname -m)

# The folder of a file, with symbolic links followed.
folder_of() { # FILE
    path=$1
    while [ -L "$path" ]; do
        link=$(readlink "$path")
        case $link in /*) path=$link ;; *) path=$(dirname "$path")/$link ;; esac
    done
    (CDPATH='' cd -- "$(dirname -- "$path")" && pwd -P)
}

# The kit: where RATTLE_HOME says, or else where the command rt stands.
kit_home() {
    if [ -n "${RATTLE_HOME:-}" ]; then
        home=$RATTLE_HOME
    elif command -v rt >/dev/null 2>&1; then
        home=$(dirname "$(folder_of "$(command -v rt)")")
    else
        echo 'there is no rt on the PATH: install the Rattle kit, and put its bin folder there' >&2
        return 1
    fi
    echo "$home"
}

# Becomes a program that was compiled for x86-64.
exec_program() { # FILE ARGUMENT ..
    if [ "$machine" = x86_64 ]; then exec "$@"; fi
    echo "$1 runs on x86-64, and this machine is $machine" >&2
    exit 2
}

run_program() { (exec_program "$@"); } # FILE ARGUMENT ..
