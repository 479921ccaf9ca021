#!/usr/bin/env bash
# Quick checks of what no proof sees: the allowed handles, the layout, what the documents name, the shell and Python
# tools, and the first command of README.md in a fresh copy (one to two minutes, nearly all of the time).
set -u
cd "$(dirname "$0")/.." || exit 2
failed=0
complain() {
  echo "quick-checks: $*"
  failed=1
}

# The handles, and where Rattle files stand.
check_layout() {
  local stray listed there
  [ "$(cat HANDLES)" = "Handles allowed: Threads, Wait." ] || complain "HANDLES isn't its one line"
  stray=$(git ls-files '*.rt' '*.antt' | grep -vE '^crates/[a-z0-9_]+/(src|specs|proofs)/')
  [ -z "$stray" ] || complain "Rattle files outside src/, specs/ and proofs/: $stray"
  listed=$(sed -n 's/^\([a-z][a-z0-9_]*\)[ :].*/\1/p' crates.txt | sort)
  there=$(ls crates | sort)
  [ "$listed" = "$there" ] || complain "crates.txt and crates/ differ"
}

# Each link of a page leads to a file.
check_links() {
  local page link
  for page in $(git ls-files '*.md'); do
    for link in $(grep -ohE '\]\([A-Za-z0-9_./-]+\)' "$page" | tr -d '])('); do
      [ -e "$(dirname "$page")/$link" ] || complain "$page links to $link, which isn't there"
    done
  done
}

# Each heading that is cited stands in its page.
check_headings() {
  git ls-files -z 'crates/*/src/*.rt' 'crates/*/specs/*.antt' '*.md' | xargs -0 python3 tools/headings.py 2>&1 || complain "a heading that is cited isn't there"
  printf '/// It is kept (docs/CANVAS.md,\n/// "No such heading").\n' > "$made/cites.rt"
  refuses python3 tools/headings.py "$made/cites.rt"
}

# A command that has to fail, with one line on the standard error.
refuses() {
  local said
  if said=$("$@" 2>&1 >/dev/null </dev/null); then
    complain "$* isn't refused"
  elif [ "$(printf '%s' "$said" | wc -l)" != 0 ] || [ -z "$said" ]; then
    complain "$* doesn't say what is wrong in one line: $said"
  fi
}

check_shell() {
  local tool
  for tool in evas_script .ci/run tools/*.sh bench/*.sh; do
    bash -n "$tool" || complain "$tool isn't a shell script"
  done
}

# Pictures: a dump becomes a PNG, and a PNG itself again.
check_pictures() {
  local panel=examples/panel/panel.png
  printf 'ffff0000 00000000\n' | python3 tools/picture.py "$made/dump.png" && [ "$(head -c 4 "$made/dump.png" | tail -c 3)" = PNG ] || complain "tools/picture.py makes no PNG"
  python3 tools/image.py "$panel" "$made/panel.evi" && python3 tools/picture.py --image "$made/panel.evi" "$made/panel.png" && cmp -s "$made/panel.png" "$panel" || complain "tools/image.py and tools/picture.py don't turn a PNG into itself"
  head -c 300 "$panel" > "$made/cut.png"
  head -c 300 "$made/panel.evi" > "$made/cut.evi"
  local bad
  for bad in none.png dump.txt cut.png; do
    refuses python3 tools/image.py "$made/$bad" "$made/out"
  done
  for bad in none.evi dump.txt cut.evi; do
    refuses python3 tools/picture.py --image "$made/$bad" "$made/out"
  done
  refuses python3 tools/image.py "$panel" "$made/none/out"
  refuses python3 tools/picture.py "$made/out"
}

# Fonts, and the files of the panel.
check_fonts() {
  printf 'height 1\nglyph 32 space\n.x\n' > "$made/bad.txt"
  python3 tools/font.py "$made/bad.txt" "$made/bad.evf" 2>&1 | grep -q 'line 3:' || complain "tools/font.py doesn't name the line that is malformed"
  refuses python3 tools/font.py "$made/bad.txt" "$made/out"
  refuses python3 tools/font.py "$made/none.txt" "$made/out"
  refuses python3 tools/font.py "$made/panel.png" "$made/out"
  mkdir "$made/store"
  python3 examples/panel/draw.py "$made/store" && diff -r "$made/store" examples/panel/store || complain "examples/panel/store isn't what its draw.py makes"
}

made=$(mktemp -d) || exit 2
trap 'rm -rf "$made"' EXIT
echo "no picture" > "$made/dump.txt"
check_layout
check_links
check_shell
if command -v python3 >/dev/null; then
  check_headings
  check_pictures
  check_fonts
fi
bash tools/first-command.sh || complain "the first command of README.md fails in a fresh copy"
[ $failed = 0 ] && echo "quick-checks: ok"
exit $failed
