# Read by the scripts beside it: the compiler, its flags, the library under test and the folder for what is built.
CC=${CC:-gcc}
LIB=${LIB:-../target/staticlib/libdrevokas.a}
OUT=../target/c

if [ ! -f "$LIB" ]; then
    echo "bench: no $LIB; build the static library first" >&2
    exit 1
fi
mkdir -p "$OUT"

build() { # NAME
    "$CC" -std=c99 -Wall -Wextra -Werror -pedantic -O2 ${FLAGS:-} -o "$OUT/$1" "$1.c" plain.c plain_desk.c "$LIB"
}
