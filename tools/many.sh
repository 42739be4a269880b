#!/bin/sh
# Of the path the absolute entries alone count: no command is one that the working folder has.
set -f; IFS=: path=; for entry in $PATH; do case $entry in /*) path=$path:$entry ;; esac; done
PATH=${path#:} && export PATH; unset IFS; set +f
self=$(realpath -- "$0") && . "${self%/*}/_moved.sh"
