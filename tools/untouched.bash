# Says whether the program that was found last is still the one of these sources. It is apart from tools/program.bash, which finds it, since each
# call of ./camac reads it. That script sets `top`, the top of the repository.
proved_program=crates/camac/out/camac

# Whether a program was found with this command of the toolchain, and nothing that it is made of was touched since then. Names that came or went
# show by their folders. Files of proofs do not count: the proved program stays proved. It sets `is_proved`, `program`, and `rt`, the toolchain's command.
is_untouched() {
  local since found_with name touched
  hash rt
  rt=${BASH_CMDS[rt]-}
  { read -r since is_proved name && read -r found_with; } <"$top/out/found" && [ "$found_with" = "$rt" ] || return
  program=$top/$name
  [ -f "$program" ] && [ -x "$program" ] || return
  touched=$(cd "$top" && shopt -s nullglob && exec find -H crates.txt crates/*/src ${proved_program%c}[c]{,.stamp} .git/[r]t-ci.lock ${rt:+"$rt"} \
    \( -newermt "@$since" -o -newerct "@$since" \) -print -quit) && [ -z "$touched" ]
} 2>/dev/null
