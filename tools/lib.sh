# What the scripts of tools/, bench/ and examples/ share. It is read with `.`.

# the program: the one that ECO names, or tools/eco.sh, which builds it
eco=${ECO:-$(cd -P "$(dirname "${BASH_SOURCE[0]}")" && pwd)/eco.sh}

# help WORD..: if the first word is --help, prints the comment at the script's head and ends the script
help() {
  if [ "${1-}" = --help ]; then
    sed -n '2,/^[^#]/s/^# \{0,1\}//p' "$0"
    exit 0
  fi
}

# skip NAME WHY: says under the script's name that it did nothing, and ends it with status 77
skip() {
  echo "skipped: $1: $2"
  exit 77
}

# need NAME TOOL..: skips the script NAME if one of the tools isn't installed
need() {
  local name=$1 tool
  shift
  for tool in "$@"; do
    command -v "$tool" >/dev/null || skip "$name" "$tool isn't installed"
  done
}

# enter [FOLDER]: goes into the folder, which is made if need be, or into one that is removed when the script ends
enter() {
  if [ $# -gt 0 ]; then
    mkdir -p "$1"
    cd "$1"
  else
    made=$(mktemp -d)
    trap 'rm -r "$made"' EXIT
    cd "$made"
  fi
}

# step NAME OUT COMMAND..: runs the command, and prints the name, the seconds and how the first line begins that the command prints; all
# that it prints goes into the file OUT. If it fails, the script ends with its status.
step() {
  local name=$1 out=$2 start hundredths status=0
  shift 2
  start=$(date +%s%N)
  "$@" >"$out" 2>log.txt || status=$?
  hundredths=$((($(date +%s%N) - start) / 10000000))
  printf '%-40s %4d.%02d s  %s\n' "$name" $((hundredths / 100)) $((hundredths % 100)) "$(head -n 1 "$out" | cut -c 1-60)"
  if [ "$status" != 0 ]; then
    tail -n 20 log.txt "$out"
    exit "$status"
  fi
}
