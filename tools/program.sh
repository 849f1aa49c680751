# shellcheck shell=bash
# What ./blk, ./test, ./install and bench/ share: from which sources the program is built, whether it is, how it is built,
# and how what was started ends. Read by bash with `top`, the repository, and `name`, the command's own name, set.
: "${top:?}" "${name:?}"
unset CDPATH

program=$top/crates/blk/out/blk
# The first line has two hashes, of the sources and of the program that was built from them; the others list both.
stamp=$top/crates/blk/out/built-from

crates=()
lines=()
hashed=
scratch=
child=

# say WHAT..: a line on standard error; where that is lost, the status still tells.
say() { printf '%s: %s\n' "$name" "$*" >&2 2>/dev/null || true; }

# fail WHY..: ends with status 3, a failure of the command itself.
fail() {
  say "$*"
  exit 3
}

# --- what is started, and how it ends ---

# Leaves no file.
clean() {
  local try
  rm -f "$stamp.$$" "$program.$$" 2>/dev/null || true
  [ -n "$scratch" ] || return 0
  # what was ended a moment ago may still write
  for try in 1 2 3 4 5 6 7 8 9 10; do
    if rm -rf "$scratch" 2>/dev/null; then break; fi
    sleep 0.1
  done
  scratch=
}

# Ends what was started: asked to at first, and after five seconds not asked.
end_child() {
  local try
  [ -n "$child" ] || return 0
  kill -s TERM -- "-$child" 2>/dev/null || true
  for ((try = 0; try < 50; try++)); do
    if ! kill -s 0 -- "-$child" 2>/dev/null; then break; fi
    sleep 0.1
  done
  kill -s KILL -- "-$child" 2>/dev/null || true
  wait "$child" 2>/dev/null || true
}

# end_by SIGNAL: ends what was started, and then this command as that signal does.
end_by() {
  trap '' HUP INT QUIT PIPE TERM
  end_child
  clean
  trap - EXIT "$1"
  kill -s "$1" "$$"
  # bash itself never ends by some signals
  exit 3
}

# Makes the temporary folder, in which all that is started keeps its files. A build writes gigabytes there, so where
# TMPDIR names no folder it isn't in /tmp, which often lies in memory.
make_scratch() {
  local signal place=${TMPDIR:-/var/tmp}
  trap clean EXIT
  for signal in HUP INT QUIT PIPE TERM; do
    # shellcheck disable=SC2064 # the signal's name is to stand in the trap
    trap "end_by $signal" "$signal"
  done
  if [ -z "${TMPDIR:-}" ] && [ ! -w "$place" ]; then place=/tmp; fi
  scratch=$(cd "$place" 2>/dev/null && mktemp -d "$PWD/blk.XXXXXX" 2>/dev/null) ||
    fail "the temporary folder $place can't be used"
  # the gate runs programs as nobody, in folders below this one
  chmod 711 "$scratch"
  { printf 'x' >"$scratch/log"; } 2>/dev/null || fail "the temporary folder $place can't be used"
}

# start FOLDER COMMAND..: runs it there, in a process group of its own, so that all of it can be ended; ends with its
# status.
start() {
  local status=0
  set -m
  (cd "$1" && shift && TMPDIR=$scratch exec "$@") </dev/null &
  child=$!
  set +m
  wait "$child" 2>/dev/null || status=$?
  child=
  return "$status"
}

# --- sources ---

# crates_of NAME..: into `crates`, the crates of the repository that these stand on, each after those below it, and then
# themselves; into `lines` what crates.txt says of each.
crates_of() {
  local line word
  local -A needs=() seen=() said=()
  crates=()
  lines=()
  [ -r "$top/crates.txt" ] || fail "a source can't be read: crates.txt"
  while IFS= read -r line || [ -n "$line" ]; do
    line=${line%%#*}
    [[ $line =~ ^[[:space:]]*([A-Za-z0-9_]+)[^:]*:(.*)$ ]] || continue
    word=${BASH_REMATCH[1]}
    needs[$word]=${BASH_REMATCH[2]}
    said[$word]=$line
  done <"$top/crates.txt"
  for word in "$@"; do take_crate "$word"; done
  [ "${#crates[@]}" != 0 ] || fail "crates.txt lists no $1"
}

# Takes a crate into `crates` and `lines`, after those below it, by the `needs`, `said` and `seen` of crates_of.
take_crate() {
  local below
  if [ -n "${seen[$1]:-}" ] || [ -z "${needs[$1]+listed}" ]; then return 0; fi
  seen[$1]=1
  for below in ${needs[$1]}; do take_crate "$below"; done
  crates+=("$1")
  lines+=("${said[$1]}")
}

# find_sources [WHAT..] -- HOW..: what find says of each of these and of each source of the program in the folder where
# this is called, the repository or a copy. Its sources are HANDLES and, of the program's crates, all but what is made
# of them, the edits that must be refused, and pages. Ends the subshell in which it runs.
find_sources() {
  local others=()
  while [ "$1" != -- ]; do
    others+=("$1")
    shift
  done
  shift
  export LC_ALL=C
  exec find "${others[@]}" "${crates[@]/#/crates/}" HANDLES -regextype posix-extended \
    -regex 'crates/[^/]+/(out|must-fail|wrong)' -prune -o -type f ! -name '*.md' "$@"
}

# The sources as they lie on the disk: a change of one, also one that is undone, changes the time that is listed.
list_sources() (cd -- "$top" && find_sources crates.txt -- -printf '%p %i %s %C@\n' 2>/dev/null)

# The same, after the program itself.
list_all() (cd -- "$top" && find_sources crates/blk/out/blk crates.txt -- -printf '%p %i %s %C@ %m\n' 2>/dev/null)

# Whether a source was written within the last two seconds, or that can't be told.
is_fresh() (
  cd -- "$top" || exit 0
  found=$(find_sources crates.txt -- -newerct '2 seconds ago' -print -quit 2>/dev/null) || exit 0
  [ -n "$found" ]
)

# sums FOLDER: a hash of each source there, beside its name as it is seen from there.
sums() (cd -- "$1" && find_sources -- -print0 | LC_ALL=C sort -z | LC_ALL=C xargs -0 sha256sum --)

# hash_sources FOLDER: into `hashed` a hash of all sources there, of their names and of what is in them, and of `lines`.
hash_sources() {
  local why
  hashed=$({ printf '%s\n' "${lines[@]}" && sums "$1"; } 2>/dev/null | sha256sum) || {
    # find or sha256sum names itself, the file and the reason
    why=$(sums "$1" 2>&1 >/dev/null | head -n 1) || true
    why=${why#*: }
    fail "a source can't be read: ${why:-no reason is given}"
  }
  hashed=${hashed%% *}
}

# copy_sources TO: copies the sources there, as the top of a repository of the program's crates alone.
copy_sources() {
  rm -rf "$1"
  mkdir -p "$1/.git"
  printf '%s\n' "${lines[@]}" >"$1/crates.txt"
  (cd -- "$top" && find_sources -- -print0 | xargs -0 cp --parents -t "$1" --) 2>"$scratch/log" || {
    # says which source can't be read, if that is why
    hash_sources "$top"
    fail "the sources can't be copied to ${scratch%/*}: $(head -n 1 "$scratch/log")"
  }
}

# hash_of FILE
hash_of() {
  local it
  it=$(sha256sum 2>/dev/null <"$1") && printf '%s' "${it%% *}"
}

# Whether the program is built from the sources as they are.
is_current() {
  local kept='' listed made
  if [ ! -x "$program" ] || [ ! -s "$program" ] || [ ! -r "$stamp" ]; then return 1; fi
  IFS= read -r -d '' kept <"$stamp" || true
  listed=$(list_all) || listed=
  if [ -n "$listed" ] && [ "${kept#*$'\n'}" = "$listed"$'\n' ]; then return 0; fi
  # a copied repository, or a file that was written again as it was
  hash_sources "$top"
  made=$(hash_of "$program")
  if [ "$hashed $made" != "${kept%%$'\n'*}" ]; then return 1; fi
  keep_stamp "$made" "$listed"
}

# keep_stamp MADE LISTED: notes that the program with this hash is built from the sources whose hash is in `hashed`.
# LISTED is what list_all said before they were hashed. A source that was written just now may be written again within
# the same tick of the disk's clock, so then no list is noted. Without one, and where nothing can be noted, the next
# start hashes again.
keep_stamp() {
  local listed=$2
  if is_fresh || [ "$listed" != "$(list_all)" ]; then listed=; fi
  { printf '%s %s\n%s\n' "$hashed" "$1" "$listed" >"$stamp.$$" && mv -f "$stamp.$$" "$stamp"; } 2>/dev/null ||
    rm -f "$stamp.$$" 2>/dev/null || true
}

# --- building ---

# The time since the build began.
so_far() {
  local seconds=$((SECONDS - began))
  if [ "$seconds" -ge 60 ]; then printf '%d min ' $((seconds / 60)); fi
  printf '%d s' $((seconds % 60))
}

# Ends here, before anything is proved, where the program can't be put into its folder, a crate is missing, python3 or rt
# isn't there or doesn't work, or rt could not run the program.
look_at_needs() {
  local crate last
  for crate in "${crates[@]}"; do
    [ -d "$top/crates/$crate" ] || fail "crates.txt lists $crate, and there is no folder crates/$crate"
  done
  { mkdir -p "${program%/*}" && : >"$program.$$" && rm -f "$program.$$"; } 2>/dev/null ||
    fail "crates/blk/out can't be written"
  command -v python3 >/dev/null || fail "python3 is not on the path, and rt, which builds the program, needs it"
  command -v rt >/dev/null || fail "rt is not on the path, and it has to build the program"
  start "$top" rt version >"$scratch/log" 2>&1 || {
    last=$(tail -n 1 "$scratch/log")
    fail "rt fails: ${last:-it says nothing}"
  }
  # as root it runs what it built as nobody, in the temporary folder
  if [ "$EUID" = 0 ] && ! setpriv --reuid=65534 --regid=65534 --clear-groups test -x "$scratch" 2>/dev/null; then
    fail "nobody, as whom rt runs the program, can't use ${scratch%/*}: TMPDIR can name another folder"
  fi
}

# take_program: puts the program that was built in the copy into its place, at once, and its hash into `made`.
take_program() {
  local from=$scratch/tree/crates/blk/out/blk
  made=$(hash_of "$from") || fail "the program that was built can't be read"
  { cp "$from" "$program.$$" && chmod 755 "$program.$$" && mv -f "$program.$$" "$program"; } 2>/dev/null ||
    fail "the program was built, but crates/blk/out can't be written"
}

# Builds the program from a copy of its sources, and again where they changed meanwhile.
build() {
  local try listed was made began=$SECONDS
  top=$(cd -- "$top" && pwd)
  make_scratch
  for try in 1 2 3; do
    if [ "$try" != 1 ]; then say "the sources changed while the program was built: once more"; fi
    crates_of blk
    look_at_needs
    rm -f "$stamp"
    copy_sources "$scratch/tree"
    hash_sources "$scratch/tree"
    was=$hashed
    start "$scratch" python3 "$top/tools/build.py" "$name" "$scratch/tree" || exit 3
    take_program
    crates_of blk
    listed=$(list_all) || listed=
    hash_sources "$top"
    # another start may have put there what it built of older sources
    if [ "$was" = "$hashed" ] && [ "$made" = "$(hash_of "$program")" ]; then
      keep_stamp "$made" "$listed"
      say "built after $(so_far): crates/blk/out/blk"
      clean
      trap - EXIT HUP INT QUIT PIPE TERM
      return 0
    fi
  done
  fail "the sources changed each of the $try times that the program was built"
}
