# shellcheck shell=sh disable=SC2154
# Part of contrib/try.sh: the module for Python.

say 'python: the module does what it says' env "PCLCHECK_LIBRARY=$built/libpclcheck.so.0" \
    "PYTHONPATH=$here/python" PYTHONDONTWRITEBYTECODE=1 python3 "$here/python/try_module.py" \
    "$work/bin/pclcheck" "$examples"
