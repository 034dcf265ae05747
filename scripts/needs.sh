#!/usr/bin/env bash
# Sees to it that commands are there: scripts/needs.sh COMMAND ... [--optional COMMAND ...]
#
# Where all of them are there it prints nothing and does nothing. Else it says what is missing and which Debian packages have it. As root it
# installs these packages; else it prints the line with which root installs them, and exits 1. A missing optional command is only told.
set -euo pipefail

say() { echo "$*" >&2; }

# The oldest Rust that the Rust code here was tried with.
rust_minor=85

# Whether a command is there; of Rust's two, whether they are new enough.
is_there() {
  command -v "$1" >/dev/null || return 1
  case $1 in
    cargo | rustc) [[ $("$1" --version 2>/dev/null) =~ ^[a-z]+\ 1\.([0-9]+)\. ]] && [ "${BASH_REMATCH[1]}" -ge "$rust_minor" ] ;;
  esac
}

# The Debian packages that have a command, or nothing where none is known. Debian 12 has the newer Rust under a name of its own.
packages_of() {
  case $1 in
    bc) echo bc ;;
    cargo | rustc) if grep -qs '^VERSION_ID="12"' /etc/os-release; then echo cargo-web rustc-web; else echo cargo rustc; fi ;;
    gcc | cc) echo gcc libc6-dev ;;
    g++ | c++) echo g++ ;;
    clang | clang++) echo clang ;;
    gnuplot) echo gnuplot-nox ;;
  esac
}

missing=() packages=() optional=0
for command in "$@"; do
  if [ "$command" = --optional ]; then
    optional=1
  elif is_there "$command"; then
    continue
  elif [ "$optional" = 1 ]; then
    say "$command is not here. It is optional: what needs it is left out. Debian: apt-get update && apt-get install -y $(packages_of "$command")"
  elif [ "$command" = rt ]; then
    say "rt is missing: install the Rattle kit and put its bin folder in the PATH."
    exit 1
  else
    read -r -a has < <(packages_of "$command") || true
    if [ "${#has[@]}" = 0 ]; then
      say "$command is missing, and no Debian package for it is known here."
      exit 1
    fi
    if command -v "$command" >/dev/null; then
      say "$command is here, but older than 1.$rust_minor or of no use: $("$command" --version 2>&1 | head -n 1)"
    fi
    missing+=("$command")
    for package in "${has[@]}"; do
      case " ${packages[*]} " in *" $package "*) ;; *) packages+=("$package") ;; esac
    done
  fi
done
[ "${#missing[@]}" -gt 0 ] || exit 0

say "missing: ${missing[*]}"
line="apt-get update && apt-get install -y ${packages[*]}"
if [ "$(id -u)" != 0 ]; then
  say "Only root can install what is missing. Run this as root, then start again:"
  say "  $line"
  exit 1
fi
if ! command -v apt-get >/dev/null; then
  say "apt-get is not here, so nothing was installed. Install what is missing, then start again. On Debian it is:"
  say "  $line"
  exit 1
fi

say "installing: ${packages[*]}"
log=$(mktemp)
trap 'rm -f "$log"' EXIT
if ! { apt-get update && DEBIAN_FRONTEND=noninteractive apt-get install -y "${packages[@]}"; } >"$log" 2>&1 </dev/null; then
  tail -n 20 "$log" >&2
  say "The install failed. This is what was run:"
  say "  $line"
  exit 1
fi
hash -r
for command in "${missing[@]}"; do
  if ! is_there "$command"; then
    say "$command is still missing or too old after the install of ${packages[*]}: $(command -v "$command" || echo "not in the PATH")"
    exit 1
  fi
done
