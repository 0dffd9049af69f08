# shellcheck shell=bash
# Sourced by scripts. `need TOOL "what to install" ...` names each tool that this machine lacks, and fails if one is
# missing. It installs nothing.
need() {
    local missing=0
    while [ $# -gt 0 ]; do
        if ! command -v "$1" >/dev/null; then
            echo "$(basename "$0"): $1 is missing: install $2" >&2
            missing=1
        fi
        shift 2
    done
    return $missing
}
