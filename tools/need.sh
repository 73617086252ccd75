# Sourced by the scripts: need COMMAND PACKAGE.. installs Debian packages where a command is missing.
need() {
    command -v "$1" >/dev/null 2>&1 && return
    local missing=$1 as=
    shift
    if [ "$(id -u)" != 0 ]; then as=sudo; fi
    command -v apt-get ${as:+"$as"} >/dev/null 2>&1 || { echo "$missing is missing: install $*" >&2; return 1; }
    echo "installing $*" >&2
    { $as apt-get update -qq && $as apt-get install -y -qq "$@"; } >&2 || { echo "$missing is missing, and $* could not be installed" >&2; return 1; }
}
