# Runs the command that a file's name stood for, which is in $self: tools/evidence.sh and tools/many.sh are bin/clearing-evidence and
# bin/clearing-many, and the scripts for developers stand in tools/dev. It goes with the next release.

# Of the path the absolute entries alone count: no command is one that the working folder has.
set -f; IFS=: path=; for entry in $PATH; do case $entry in /*) path=$path:$entry ;; esac; done
PATH=${path#:} && export PATH; unset IFS; set +f

older=${self##*/}
top=${self%/*/*}
case $older in
# What a command says begins with the name that it was called by.
evidence.sh | many.sh) . "$top/bin/clearing-${older%.sh}" ;;
*) exec "$top/tools/dev/$older" "$@" ;;
esac
