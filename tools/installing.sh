# What tools/install_library and tools/install_places share, for `source`. They set `prefix`, the folder that all goes under, before they call.

# Copies a file and prints where to: put MODE FILE PATH
put() {
  install -m "$1" "$2" "$3"
  echo "$3"
}

# Puts a shared library into lib under its soname, beside a link to it by its own name, and prints both: put_shared FILE
put_shared() {
  local soname
  soname=$(readelf -d "$1" | sed -nE 's/.*\(SONAME\).*\[(.*)\]/\1/p')
  put 755 "$1" "$prefix/lib/$soname"
  ln -sf "$soname" "$prefix/lib/${1##*/}"
  echo "$prefix/lib/${1##*/}"
}

# Writes what pkg-config reads of a library, and prints where to: put_pc NAME DESCRIPTION VERSION
put_pc() {
  local file=$prefix/lib/pkgconfig/$1.pc
  cat >"$file" <<END_OF_PC
prefix=$prefix
includedir=\${prefix}/include
libdir=\${prefix}/lib

Name: $1
Description: $2
Version: $3
Cflags: -I\${includedir}
Libs: -L\${libdir} -Wl,-rpath,\${libdir} -l$1
END_OF_PC
  echo "$file"
}
