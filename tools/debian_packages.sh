# What tools/pack_debian and tools/pack_debian_places share, for `source`. They set `top`, the repository's folder, before, and call `begin` first.

# Says what is packed: begin NAME TREE VERSION FOLDER, with the name of s2ix.pc and its like. The packages come into FOLDER.
begin() {
  tree=$(cd "$2" && pwd) version=$3-1 folder=$4
  docs=$tree/share/doc/$1
  libraries=usr/lib/$(cc -print-multiarch)
  maintainer=$([ -e "$top/.git" ] && git -C "$top" log -1 --format='%cn <%ce>' 2>/dev/null) || maintainer='unknown <unknown@unknown.invalid>'
  about=$(sed -nE 's/^Description: (An? )?//p' "$tree/lib/pkgconfig/$1.pc")
  room=$(mktemp -d)
  trap 'rm -rf "$room"' EXIT
}

# The libc6 that a file depends on.
libc_of() { echo "libc6 (>= $("$top/tools/oldest_glibc" "$1"))"; }

# Copies files, or what they are links to, into a folder of a package: put PACKAGE MODE FOLDER FILE..
put() {
  install -d "$room/$1/$3"
  install -m "$2" -t "$room/$1/$3" "${@:4}"
}

# Puts a shared library into a package, which the linker then finds: put_shared PACKAGE LIBRARY, as in put_shared libs2ix1 libs2ix
put_shared() {
  local soname
  soname=$(readlink "$tree/lib/$2.so")
  put "$1" 644 "$libraries" "$tree/lib/$soname"
  install -d "$room/$1/DEBIAN"
  echo "$2 ${soname##*.} $1 (>= ${version%-*})" >"$room/$1/DEBIAN/shlibs"
  echo 'activate-noawait ldconfig' >"$room/$1/DEBIAN/triggers"
}

# Puts what programs over a shared library are built with into a package: put_headers PACKAGE LIBRARY
put_headers() {
  local name=${2#lib}
  put "$1" 644 usr/include "$tree"/include/*
  install -d "$room/$1/$libraries"
  ln -s "$(readlink "$tree/lib/$2.so")" "$room/$1/$libraries/$2.so"
  put "$1" 644 "$libraries/pkgconfig" "$tree/lib/pkgconfig/$name.pc"
  sed -i -e 's|^prefix=.*|prefix=/usr|' -e "s|^libdir=.*|libdir=/$libraries|" -e 's| -Wl,-rpath,${libdir}||' \
    "$room/$1/$libraries/pkgconfig/$name.pc"
}

# Puts a package of Python into one of Debian: put_python PACKAGE NAME
put_python() {
  local folder=usr/lib/python3/dist-packages/$2 files page
  mapfile -t files < <(find "$tree/lib/python/$2" -maxdepth 1 -type f)
  put "$1" 644 "$folder" "${files[@]}"
  install -d "$room/$1/usr/share/doc/$1"
  # (the package reads its pages, and a system may have no documents)
  for page in "$tree/lib/python/$2"/*.md; do
    ln -s "../../../${folder#usr/}/${page##*/}" "$room/$1/usr/share/doc/$1/${page##*/}"
  done
  script "$1" postinst "if [ \"\$1\" = configure ] && command -v py3compile >/dev/null; then py3compile -p $1; fi"
  script "$1" prerm "if command -v py3clean >/dev/null; then py3clean -p $1; fi"
}

changes() {
  printf 's2ix (%s) unstable; urgency=medium\n\n  * Packed by ./package: NOTES.txt names the commit and the toolchain.\n\n' "$version"
  printf ' -- %s  %s\n' "$maintainer" "$(date -u -R -d "@$SOURCE_DATE_EPOCH")"
}

# Packs what was put into a package: pack PACKAGE SECTION DEPENDS DESCRIPTION FIELDS [ARCHITECTURE]. The description's first line goes on that
# of all packages; the fields are lines of the control file, if there are more.
pack() {
  local at=$room/$1
  local own=$at/usr/share/doc/$1
  put "$1" 644 "usr/share/doc/$1" "$docs/NOTES.txt" "$docs/copyright"
  changes | gzip -9n >"$own/changelog.Debian.gz"
  gzip -9n <"$top/CHANGELOG.md" >"$own/changelog.gz"
  mkdir -p "$at/DEBIAN"
  (cd "$at" && find usr -type f -print0 | sort -z | xargs -0 md5sum >DEBIAN/md5sums)
  cat >"$at/DEBIAN/control" <<END
Package: $1
Source: s2ix
Version: $version
Architecture: ${6:-$(dpkg --print-architecture)}
Maintainer: $maintainer
Installed-Size: $(find "$at/usr" -type f -printf '%s\n' | awk '{ size += int(($1 + 1023) / 1024) } END { print size }')
Depends: $3${5:+
$5}
Section: $2
Priority: optional
Description: $about$4
END
  find "$at" -exec touch -h -d "@$SOURCE_DATE_EPOCH" {} +
  dpkg-deb --root-owner-group -Zgzip -z9 --build "$at" "$folder" >"$room/said"
}

# Puts a package's pages and examples into its folder of documents: document PACKAGE PAGES EXAMPLES
document() {
  local name
  for name in $2; do
    put "$1" 644 "usr/share/doc/$1" "$docs/$name.md"
  done
  for name in $3; do
    put "$1" "$([ -x "$docs/examples/$name" ] && echo 755 || echo 644)" "usr/share/doc/$1/examples/$(dirname "$name")" "$docs/examples/$name"
  done
}

# A script that dpkg runs with a package, which has these lines: script PACKAGE NAME LINES
script() {
  install -d "$room/$1/DEBIAN"
  printf '#!/bin/sh\nset -e\n%s\n' "$3" >"$room/$1/DEBIAN/$2"
  chmod 755 "$room/$1/DEBIAN/$2"
}
