#!/usr/bin/env bash
# Makes abd_VERSION_amd64.deb and abd-VERSION-linux-x86_64.tar.gz in FOLDER (release/), with a file of checksums, in the place of older ones:
#
#   scripts/package.sh [FOLDER]             runs the gate first, without its comparison with the package that this makes
#   scripts/package.sh --no-looks [FOLDER]  runs `rt ci` alone, without what looks at the program, as scripts/verify_release.sh does
#
# Nothing unproved is packed. Made twice from one commit by one kit the files are the same, byte for byte: names are sorted, owners are 0,
# times are the commit's, and gzip writes no name and no time.
set -euo pipefail
cd "$(dirname "$0")/.."
top=$PWD
is_looked_at=yes
if [ "${1:-}" = --no-looks ]; then
  is_looked_at=no
  shift
fi
to=$(mkdir -p "${1:-release}" && cd "${1:-release}" && pwd)
if [ -n "$(git status --porcelain)" ]; then
  echo "package: commit first: the checksums name a commit" >&2
  exit 1
fi
program=$top/crates/abd/out/abd
gate=(rt ci)
if [ "$is_looked_at" = yes ]; then
  gate=(.ci/run --without-release)
fi
if ! passed=$("${gate[@]}" | tee /dev/stderr | tail -1); then
  echo "package: the gate failed" >&2
  exit 1
fi
version=$("$program" --version | cut -d' ' -f2)
export SOURCE_DATE_EPOCH
SOURCE_DATE_EPOCH=$(git log -1 --format=%ct)
libc=$(objdump -T "$program" | grep -o 'GLIBC_[0-9.]*' | sort -uV | tail -1 | cut -d_ -f2)
umask 022
work=$(mktemp -d)
trap 'rm -rf "$work"' EXIT

# What both have: the program, its page, completions, documents and examples.
files() { # files ROOT BIN MAN DOC BASH ZSH FISH
  install -Dm755 "$program" "$1/$2/abd"
  strip --strip-unneeded "$1/$2/abd"
  install -Dm644 docs/abd.1 "$1/$3/abd.1"
  gzip -9n "$1/$3/abd.1"
  mkdir -p "$1/$4/docs/using" "$1/$4/examples"
  install -m644 README.md "$1/$4"
  install -m644 docs/*.md docs/*.svg "$1/$4/docs"
  install -m644 docs/using/* "$1/$4/docs/using"
  git ls-files examples | while read -r file; do install -m644 "$file" "$1/$4/examples"; done
  install -Dm644 docs/completions/abd.bash "$1/$5/abd"
  install -Dm644 docs/completions/_abd "$1/$6/_abd"
  install -Dm644 docs/completions/abd.fish "$1/$7/abd.fish"
  find "$1" -type d -exec chmod 755 {} +
  find "$1" -exec touch -hd "@$SOURCE_DATE_EPOCH" {} +
}

name=abd-$version-linux-x86_64
files "$work/$name" bin share/man/man1 share/doc/abd share/bash-completion/completions share/zsh/site-functions share/fish/vendor_completions.d
tar -C "$work" --sort=name --owner=0 --group=0 --numeric-owner --mtime="@$SOURCE_DATE_EPOCH" -cf - "$name" | gzip -9n > "$to/$name.tar.gz"

deb=$work/deb
files "$deb" usr/bin usr/share/man/man1 usr/share/doc/abd usr/share/bash-completion/completions usr/share/zsh/vendor-completions \
  usr/share/fish/vendor_completions.d
cat > "$deb/usr/share/doc/abd/copyright" <<END
abd, $(git log -1 --format=%H)

Copyright $(git log -1 --format=%cd --date=format:%Y) the maintainers of abd
No licence has been chosen yet.
END
printf 'abd (%s) unstable; urgency=medium\n\n  * The state of commit %s.\n\n -- %s  %s\n' "$version" "$(git log -1 --format=%h)" \
  "$(git log -1 --format='%an <%ae>')" "$(date -uRd "@$SOURCE_DATE_EPOCH")" | gzip -9n > "$deb/usr/share/doc/abd/changelog.gz"
mkdir -p "$deb/DEBIAN"
cat > "$deb/DEBIAN/control" <<END
Package: abd
Version: $version
Architecture: amd64
Maintainer: $(git log -1 --format='%an <%ae>')
Depends: libc6 (>= $libc)
Section: devel
Priority: optional
Installed-Size: $(du -sk --apparent-size "$deb/usr" | cut -f1)
Description: checker of recorded histories of atomic registers
 Judges whether the recorded calls on the keys of a store were atomic, says
 which calls show that they weren't, simulates a replicated store by the ABD
 algorithm, and runs one in threads. Each verdict is proved to be exactly that
 of the definition.
END
(cd "$deb" && find usr -type f -print0 | sort -z | xargs -0 md5sum > DEBIAN/md5sums)
chmod 644 "$deb"/DEBIAN/*
find "$deb" -exec touch -hd "@$SOURCE_DATE_EPOCH" {} +
dpkg-deb --root-owner-group -Zxz --build "$deb" "$to/abd_${version}_amd64.deb" > /dev/null

{
  echo "commit $(git log -1 --format=%H)"
  echo "kit $(rt version)"
  echo "gate $passed"
  echo "needs the C library $libc or later, and nothing else"
  cd "$to"
  sha256sum "abd_${version}_amd64.deb" "$name.tar.gz"
} > "$work/sums"
find "$to" -maxdepth 1 -name 'abd[-_]*' ! -name "abd[-_]$version[-_.]*" -delete
mv "$work/sums" "$to/abd-$version.sums"
cat "$to/abd-$version.sums"
