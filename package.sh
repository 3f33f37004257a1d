#!/bin/sh
# Packs the proved program into dist/, as a Debian package and as a wheel for pip.
#
#     ./package.sh         makes both
#     ./package.sh --test  makes both and tries them in a fresh Debian, as root and with network, in some minutes
folder=$(dirname "$(readlink -f "$0")")
# Debian's Python, since another one's argparse and setuptools write other bytes.
python=/usr/bin/python3

case ${1-} in
    '' | --test) ;;
    *)
        echo "package: ./package.sh takes no words but --test" >&2
        exit 2
        ;;
esac
program=$("$python" -B "$folder/building" proved) || exit
"$python" -B "$folder/packaging" make "$program" "$folder/dist" || exit
if [ "${1-}" = --test ]; then
    exec "$python" -B "$folder/packaging/tests/fresh_root.py" "$folder/dist"
fi
