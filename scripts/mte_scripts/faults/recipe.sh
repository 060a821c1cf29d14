# What traced_cc and traced_c++ read first: the shell becomes the compiler by the recipe that an earlier call left (compiler_driver.py), if nobody
# else can change the way to it.
is_private() {
  path=$1 owner= number=0
  set --
  while [ "$path" ]; do
    [ ! -h "$path" ] || return 1
    set -- "$@" "$path"
    path=${path%/*}
  done
  for each in $(stat -c %u:%a -- "$@" / 2>&1); do
    number=$((number + 1)) owner=${owner:-${each%:*}}
    case $each in 0:* | "$owner":*) ;; *) return 1 ;; esac
    case $number:$each in
      [12]:*[2367] | [12]:*[2367]? | *:[0246]???) case $each in *[2367] | *[2367]?) return 1 ;; esac ;;
      *:*:[1357]???) ;;
      *[2367] | *[2367]?) return 1 ;;
    esac
  done
}
case ${XDG_CACHE_HOME-} in /*) recipe=$XDG_CACHE_HOME ;; *) recipe=${HOME-}/.cache ;; esac
recipe=$recipe/mte_tool/recipes/${0##*/}.${TRACED_CC##*/}.${TRACED_CXX##*/}
[ -O "$recipe" ] && is_private "$recipe" && . "$recipe"
