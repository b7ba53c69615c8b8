#!/usr/bin/env bash
# From two netlists to an audited patch: fix.sh OLD NEW WEIGHTS FOLDER. Runs locate, synth --least 1 and audit in a row, keeps in the folder
# what each of them writes and prints, and says in a line what came of it. OLD is the netlist as it was, NEW the one with the wanted outputs,
# WEIGHTS the file of weights for the signals of OLD. Its status is that of the command that ends the row. ECO=path names the program.
set -eu
top=$(cd -P "$(dirname "$0")/.." && pwd)
. "$top/tools/lib.sh"
help "$@"
if [ $# -ne 4 ]; then
  echo 'usage: fix.sh OLD NEW WEIGHTS FOLDER' >&2
  exit 2
fi
old=$(realpath "$1")
new=$(realpath "$2")
weights=$(realpath "$3")
enter "$4"

# run OUT COMMAND..: the command's status, whose printed text goes into the file OUT
run() {
  local out=$1 status=0
  shift
  "$eco" "$@" >"$out" || status=$?
  return "$status"
}

# stop STATUS WORDS..: says the words and ends the script with this status
stop() {
  local status=$1
  shift
  echo "$*"
  exit "$status"
}

# weight_of NAME: its weight, if the file of weights has a line for it
weight_of() {
  name=$1 awk '{ sub(/^\\/, "", $1) } $1 == ENVIRON["name"] { print $2 }' "$weights"
}

status=0
run located.txt locate --impl "$old" --spec "$new" --cut cut.v || status=$?
case $status in
  0) ;;
  1) stop 1 "no net can be cut alone; inputs that show it: $(grep -c '^input' located.txt) (located.txt)" ;;
  4) stop 4 "the budget was spent before a net was found; left open: $(grep -c '^open' located.txt) (located.txt)" ;;
  *) stop "$status" "locate: $(head -n 1 located.txt)" ;;
esac
if [ "$(head -n 1 located.txt)" = equal ]; then
  stop 0 'the netlists are equal: nothing has to be changed'
fi
net=$(sed -n 's/^net \([^ ]*\) .*/\1/p' located.txt | head -n 1)
# if an output was cut, the patch may read what its gate gave, with the output's weight
cp "$weights" weights.txt
old=$(sed -n 's/^wire \\\{0,1\}\(.*[^ ]\) *;$/\1/p' cut.v | tail -n 1)
case $old in
  old_*"$net")
    weight=$(weight_of "$net")
    if [ -n "$weight" ]; then printf '\n%s %s\n' "$old" "$weight" >>weights.txt; fi ;;
esac
problem=(--impl cut.v --spec "$new" --weight weights.txt --patch patch.v --out patched.v)
run report.txt synth --least 1 "${problem[@]}" || stop $? "$net is cut; synth: $(head -n 1 report.txt)"
run audit.txt audit "${problem[@]}" --report report.txt || stop $? "$net is cut and patched; audit: $(head -n 1 audit.txt)"
echo "$net is cut and patched: $(sed -n '2,3p' report.txt | tr '\n' ' ')(patch.v, patched.v, report.txt); audit: $(cat audit.txt)"
