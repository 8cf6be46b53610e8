# Finds the program of these sources, for scripts of bash. They set `top`, the top of the repository, and call `find_program`. It sets
# `program`, a file to be run, and `is_proved`, yes or no. If there is none it says why, and answers 3. `find_library` does the same with
# the archive of the library for C: it sets `library` and `is_library_proved`. Scripts that want both set `with_library`, and call `end_library`
# when they end.
#
# The proved program is crates/camac/out/camac, as `rt run` or `rt ci` leaves it, if it is that of these sources. Else it is one that
# tools/quick_build made of them, which is kept in out/. The file out/found has the last one, with the second of that look, so that the next
# call only has to see that nothing was touched since then. The library is found so too: proved by `.ci/run` or ./install --prove,
# else made by tools/quick_library and kept.

source "$top/tools/untouched.bash" || return 3
proved_library=crates/camac_c/out/libcamac_c.a
called='find sort xargs sha256sum stat mkdir mv rm'

# Says why there is no program or library, and answers 3.
refuse() {
  echo "camac: $1" >&2
  return 3
}

# Refuses if one of these tools is not here.
need() {
  local tool
  for tool in "$@"; do
    type -P "$tool" >/dev/null || refuse "$tool is not here, and is needed" || return
  done
}

# The sum of a text. An empty one has none: its writer has failed.
sum_of_text() {
  local sum
  sum=$(sha256sum) && [[ $sum != e3b0c44298fc1c149afbf4c8996fb924* ]] && echo "${sum%% *}"
}

# A sum of the names and texts of crates.txt and of the files below these folders. The backups of editors are no part of it.
texts_of() {
  local sum
  sum=$(set -o pipefail && cd "$top" && LC_ALL=C find crates.txt "$@" -type f ! -name '.*' ! -name '*~' ! -name '#*' -print0 |
    LC_ALL=C sort -z | xargs -0 sha256sum | sum_of_text) && echo "${sum:0:32}"
}

# Writes a line into a file of out/ in one step. If out/ cannot be written, the next call looks again.
write_down() {
  { mkdir -p "$top/out" && echo "$2" >"$top/out/$1.$$" && mv "$top/out/$1.$$" "$top/out/$1"; } 2>/dev/null || true
}

# A sum of all texts that are proved, and one of the files that were made of them.
proof_of() {
  local texts sum
  texts=$(cd "$top" && texts_of crates/*/{src,specs,proofs}) && sum=$(sum_of_text <"$top/$1") && echo "$texts $sum"
}

# Whether the proved program or library is that of these sources: none of them was touched since its proof began. `rt run`
# leaves a stamp that ends with the program's sum, only if nothing was changed while it proved and built; `rt ci` opens its lock anew when
# it begins, and sets aside what was built before. (Of that time whole seconds count, since clocks of files are coarse.) A file of out/ notes
# what was found to be proved, since times may change while texts do not.
stands_proved() {
  local made=$1 note=$2 proof known= since younger
  [ -r "$top/$made" ] && proof=$(proof_of "$made") || return
  [ -r "$top/out/$note" ] && IFS= read -r known <"$top/out/$note"
  [ "$known" = "$proof" ] && return
  since=$top/$made.stamp
  if [ ! -r "$since" ] || [[ $(<"$since") != *"${proof#* }" ]]; then
    since=$top/.git/rt-ci.lock
    [ -e "$since" ] && [ "$top/$made" -nt "$since" ] || return
  fi
  since=$(stat -c @%Y "$since") || return
  younger=$(cd "$top" && find crates.txt crates/*/{src,specs,proofs} \( -newermt "$since" -o -newerct "$since" \) -print -quit) && [ -z "$younger" ] || return
  write_down "$note" "$proof"
}

# Finds the file that a tool made of these texts, kept under a name with this begin and end, or has it made. It sets `kept`.
find_kept() {
  local tool=$1 begin=$2 end=$3 texts kit status
  shift 3
  texts=$(cd "$top" && texts_of "$@") || refuse "the sources cannot be read" || return
  if ! type -P rt >/dev/null; then
    for kept in "$top/out/$begin.$texts."????????????????"$end"; do
      [ -x "$kept" ] && return
    done
    refuse "the toolchain's command rt is not here: README.md says what is needed" || return
  fi
  kit=$(set -o pipefail && rt version | sum_of_text) || refuse "the toolchain's command rt does not tell its version" || return
  kept=$top/out/$begin.$texts.${kit:0:16}$end
  [ -x "$kept" ] && return
  need python3 || return
  [ "$tool" = quick_library ] || begin_library
  "$top/tools/$tool" "$kept" </dev/null >/dev/null
  status=$?
  [ "$status" -lt 128 ] || exit "$status"
  [ "$status" -eq 0 ] || return 3
  if [ "$(cd "$top" && texts_of "$@")" != "$texts" ]; then
    rm -f "$kept"
    refuse "the sources were changed while they were built: call again"
  fi
}

# Whether a second build may run beside the first. A build takes up to two processors and 2.5 GB of memory.
is_idle() {
  local processors load name free
  processors=$(nproc) && read -r load _ </proc/loadavg || return
  while read -r name free _ && [ "$name" != MemAvailable: ]; do :; done </proc/meminfo
  [ $((processors - ${load%.*})) -ge 3 ] && [ "${free:-0}" -ge 6000000 ]
} 2>/dev/null

# Builds the library beside the program, in a group of processes of its own.
begin_library() {
  [ -n "${with_library-}" ] && is_idle || return
  echo "camac: the library for C is built beside the program" >&2
  set -m
  (find_library) </dev/null >/dev/null 2>&1 &
  beside=$!
  set +m
}

end_library() {
  [ -z "${beside-}" ] || kill -- "-$beside" 2>/dev/null
}

find_program() {
  local since
  is_untouched && return
  need $called || return
  printf -v since '%(%s)T' -1
  if [ -x "$top/$proved_program" ] && stands_proved $proved_program proved; then
    is_proved=yes
    program=$top/$proved_program
  else
    is_proved=no
    find_kept quick_build camac '' $(cd "$top" && echo crates/*/src) || return
    program=$kept
  fi
  write_down found "$since $is_proved ${program#"$top"/}"$'\n'"$rt"
}

find_library() {
  if stands_proved $proved_library proved_library; then
    is_library_proved=yes
    library=$top/$proved_library
  else
    is_library_proved=no
    find_kept quick_library libcamac .a $(cd "$top" && echo crates/*/src) tools/library_main.text || return
    library=$kept
  fi
}
