#!/bin/sh
# After tools/install.sh PREFIX:
#   PKG_CONFIG_PATH=PREFIX/lib/pkgconfig examples/pkg-config/build.sh OUT && LD_LIBRARY_PATH=PREFIX/lib OUT
set -eu
source=$(dirname -- "$0")/../use.c
# the words of pkg-config are split on purpose
# shellcheck disable=SC2046
exec cc -std=c99 -Wall -Wextra -o "$1" "$source" $(pkg-config --cflags --libs hogzelt)
