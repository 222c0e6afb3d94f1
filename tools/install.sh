#!/usr/bin/env bash
# Installs the library for C below PREFIX: the header, the archive, a shared object made of it, and what
# pkg-config and CMake need to find them.
#   tools/install.sh PREFIX
# The archive is target/staticlib/libhogzelt.a, which tools/build.sh proves and builds where it is missing, or
# the one that HOGZELT_LIB names. Files that are there are replaced. Needs cc.
# Status: 0 done, 1 something could not be built or written, 2 wrong usage or a tool that is missing.
set -euo pipefail

stop() {
    printf 'install: %s\n' "$*" >&2
    exit 2
}

case "$#:${1:-}" in
1:-* | 1: | [!1]*:*) stop "usage: tools/install.sh PREFIX" ;;
esac
top=$(cd -- "$(dirname -- "${BASH_SOURCE[0]}")/.." && pwd)
command -v cc > /dev/null 2>&1 || stop "cc, a C compiler, is missing"

archive=${HOGZELT_LIB:-$top/target/staticlib/libhogzelt.a}
if [ -z "${HOGZELT_LIB:-}" ] && [ ! -f "$archive" ]; then
    command -v rt > /dev/null 2>&1 || stop "rt is missing, and so is the archive; HOGZELT_LIB can name one"
    printf 'install: tools/build.sh proves and builds the archive, which takes long the first time\n' >&2
    "$top/tools/build.sh" >&2
fi
[ -f "$archive" ] || stop "there is no archive $archive"

header=$top/include/hogzelt.h
version=$(sed -n 's/^#define HOGZELT_VERSION_TEXT "\(.*\)"$/\1/p' "$header")
major=${version%%.*}
[ -n "$version" ] || stop "$header has no version"

mkdir -p "$1/include" "$1/lib/pkgconfig" "$1/lib/cmake/hogzelt"
prefix=$(cd -- "$1" && pwd)
lib=$prefix/lib
cp -- "$header" "$prefix/include/hogzelt.h"
cp -- "$archive" "$lib/libhogzelt.a"
cc -shared -o "$lib/libhogzelt.so.$version" "-Wl,-soname,libhogzelt.so.$major" \
    -Wl,--whole-archive "$archive" -Wl,--no-whole-archive
ln -sf "libhogzelt.so.$version" "$lib/libhogzelt.so.$major"
ln -sf "libhogzelt.so.$major" "$lib/libhogzelt.so"

cat > "$lib/pkgconfig/hogzelt.pc" << END
prefix=\${pcfiledir}/../..

Name: hogzelt
Description: Mixed Boolean-arithmetic expressions as short sums of weighted bitwise atoms
Version: $version
Cflags: -I\${prefix}/include
Libs: -L\${prefix}/lib -lhogzelt
END

cat > "$lib/cmake/hogzelt/hogzelt-config.cmake" << 'END'
# The targets hogzelt::hogzelt, the archive, and hogzelt::shared, the shared object.
get_filename_component(hogzelt_prefix "${CMAKE_CURRENT_LIST_DIR}/../../.." ABSOLUTE)
if(NOT TARGET hogzelt::hogzelt)
  add_library(hogzelt::hogzelt STATIC IMPORTED)
  set_target_properties(hogzelt::hogzelt PROPERTIES
    IMPORTED_LOCATION "${hogzelt_prefix}/lib/libhogzelt.a"
    INTERFACE_INCLUDE_DIRECTORIES "${hogzelt_prefix}/include")
  add_library(hogzelt::shared SHARED IMPORTED)
  set_target_properties(hogzelt::shared PROPERTIES
    IMPORTED_LOCATION "${hogzelt_prefix}/lib/libhogzelt.so"
    INTERFACE_INCLUDE_DIRECTORIES "${hogzelt_prefix}/include")
endif()
END

cat > "$lib/cmake/hogzelt/hogzelt-config-version.cmake" << END
set(PACKAGE_VERSION "$version")
if(PACKAGE_FIND_VERSION VERSION_LESS_EQUAL PACKAGE_VERSION AND PACKAGE_FIND_VERSION_MAJOR EQUAL $major)
  set(PACKAGE_VERSION_COMPATIBLE TRUE)
endif()
if(PACKAGE_FIND_VERSION VERSION_EQUAL PACKAGE_VERSION)
  set(PACKAGE_VERSION_EXACT TRUE)
endif()
END

printf 'hogzelt %s: %s\n' "$version" "$prefix"
