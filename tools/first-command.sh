#!/usr/bin/env bash
# Gives the first command of README.md as a newcomer does: in a fresh copy of the tracked files, in which nothing is built.
# Its log has to be examples/panel/panel.log, and its frames those of examples/panel/frames.sha256 and of the PNGs beside it.
set -u
cd "$(dirname "$0")/.." || exit 2
fresh=$(mktemp -d) || exit 2
trap 'rm -rf "$fresh"' EXIT
failed=0
complain() {
  echo "first-command: $*"
  failed=1
}

# The words that the program gets of these, given in the folder examples/.
words_of() {
  (cd "$fresh/examples" && ../evas_script "$@" | tr '\n' ' ')
}

# Folders are those of the caller, and all other words stay as they are. A program that prints its words stands for the real one.
check_words() {
  local out="$fresh/crates/evas_script/out" here="$fresh/examples" option
  mkdir "$out"
  printf '#!/bin/sh\nprintf "%%s\\n" "$@"\n' > "$out/evas_script"
  chmod +x "$out/evas_script"
  [ "$(words_of --cell 4 --frames . --store panel/store)" = "--cell 4 --frames $here/. --store $here/panel/store " ] || complain "a relative folder isn't the caller's"
  for option in $(sed -n 's/^| `\(--[a-z]*\)` | the \(folder\|file\) .*/\1/p' docs/SCRIPT.md); do
    words_of "$option" sub | grep -qF -- "$option $here/sub " || complain "a relative path behind $option isn't the caller's"
  done
  [ "$(words_of)" = "--store $here " ] || complain "without --store it isn't the caller's folder"
  [ "$(words_of --store /a --frames -b --store)" = "--store /a --frames -b --store " ] || complain "words that aren't relative folders change"
  rm -r "$out"
}

# Whether two PNGs show the same: they have the same bytes, or else the same pixels, since compressors differ.
same_picture() {
  cmp -s "$1" "$2" || { python3 tools/image.py "$1" "$fresh/one.evi" && python3 tools/image.py "$2" "$fresh/other.evi" && cmp -s "$fresh/one.evi" "$fresh/other.evi"; }
}

check_frames() {
  local frame
  (cd "$fresh" && sha256sum --quiet -c examples/panel/frames.sha256) || complain "the frames aren't those of examples/panel/frames.sha256"
  command -v python3 >/dev/null || return
  for frame in 1 4 7; do
    python3 tools/picture.py --scale 3 --image "$fresh/frame-$frame.evi" "$fresh/made.png"
    same_picture "$fresh/made.png" "examples/panel/frame-$frame.png" || complain "examples/panel/frame-$frame.png isn't frame $frame"
  done
}

git ls-files -z | tar --null --files-from=- -cf - | tar -xf - -C "$fresh" || exit 2
check_words
command=$(sed -n '/^    \.\/evas_script /{s/^ *//p;q}' README.md)
[ -n "$command" ] || complain "README.md has no command ./evas_script"
(cd "$fresh" && bash -c "$command") > "$fresh/log" 2> "$fresh/said" || complain "$command ended with status $?, and said: $(cat "$fresh/said")"
diff "$fresh/log" examples/panel/panel.log || complain "the log isn't examples/panel/panel.log"
check_frames
exit $failed
