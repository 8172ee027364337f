# To be sourced: puts cargo on PATH where it stands in the home folder only.
command -v cargo >/dev/null 2>&1 || PATH=${CARGO_HOME:-${HOME:-}/.cargo}/bin:$PATH
command -v cargo >/dev/null 2>&1 || { echo "cargo is neither on PATH nor in the home folder" >&2; exit 2; }
