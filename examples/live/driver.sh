# A driver in the shell for examples/straight_line.script: it serves two demands. Lines marked CALL stand for what you do with your crates.
demands=2
held=
# However the driver ends, by a signal too, it releases what it holds, and no further signal comes into that.
trap 'trap "" INT TERM HUP
for crate in $held; do echo "lockout of crate $crate released" >&2; done' EXIT            # CALL
trap 'exit 1' INT TERM HUP
while read -r request; do
  case $request in
  demand)
    if [ "$demands" -gt 0 ]; then echo '0 0 000000 0 000004'; else exec >&-; fi           # CALL
    demands=$((demands - 1)) ;;
  cycle*) echo '1 1 000123 0 000000' ;;                                                   # CALL
  lock*) held="${request#lock } $held"; echo '0 0 000000 0 000000' ;;                     # CALL
  unlock*) held=${held#* } ;;                                                             # CALL
  *) echo "$request" >&2 ;;
  esac
done
