# What both commands build with. They run from the top of the repository.
built=target/bench
flags="-O2 -std=c99 -D_DEFAULT_SOURCE -Wall -Wextra -Iinclude"
common="bench/timing.c bench/samples.c bench/plain_update.c bench/updates.c"
libraries=""

# Whether a header is there to build with.
has_header() {
    echo "#include <$1>" | cc -E - >/dev/null 2>&1
}

missing() {
    echo "bench: $1 is not installed: its column stays empty"
}

mkdir -p "$built"
archive=$(tests/archive)
archive=${archive#"$PWD/"}
if has_header msgpuck.h; then
    flags="$flags -DHAVE_MSGPUCK"
    libraries="$libraries -lmsgpuck"
else
    missing libmsgpuck-dev
fi
if has_header msgpack.h; then
    flags="$flags -DHAVE_MSGPACK"
    libraries="$libraries -lmsgpackc"
else
    missing libmsgpack-dev
fi
