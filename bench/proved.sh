# Read by the programs beside it, with `top` and `work` set.
#
# proved NAME "CRATES": proves and builds the program NAME, whose source stands in $work/crates/NAME, over these crates of the repository. What the gate has
# proved on this machine is taken from what it kept. Without CRATES the program is the repository's own. The gate runs the program as well, without words, and what
# that comes to says nothing here: it counts that the program was built, which only a proved one is.
proved() {
  awk -F: -v wanted="${2:-$1}" '
    /^#/ { next }
    { split($1, head, " "); line[head[1]] = $0; uses[head[1]] = $2 }
    END {
      count = split(wanted, names, " ")
      for (i = 1; i <= count; i++) {
        if (!(names[i] in line) || names[i] in taken) continue
        taken[names[i]] = 1
        print line[names[i]]
        more = split(uses[names[i]], below, " ")
        for (j = 1; j <= more; j++) names[++count] = below[j]
      }
    }' "$top/crates.txt" > "$work/crates.txt"
  sed 's/[: ].*//' "$work/crates.txt" | while read -r name; do
    mkdir -p "$work/crates/$name"
    for part in src specs proofs; do
      [ ! -d "$top/crates/$name/$part" ] || cp -r "$top/crates/$name/$part" "$work/crates/$name/"
    done
  done
  [ -z "${2:-}" ] || echo "$1: $2" >> "$work/crates.txt"
  cp "$top/HANDLES" "$work/"
  (cd "$work/crates/$1" && rt fmt > /dev/null)
  (cd "$work" && rt ci > "$work/gate.txt" 2>&1) || [ -x "$work/crates/$1/out/$1" ] || { cat "$work/gate.txt"; exit 1; }
}
